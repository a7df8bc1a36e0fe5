// Figures that several measurements take.

/** Milliseconds of the processor so far, all threads of node together. */
export function processorTime() {
  const {user, system} = process.cpuUsage();
  return (user + system) / 1000;
}

export const median =
    (list) => [...list].sort((one, other) => one - other)[Math.floor(list.length / 2)];
