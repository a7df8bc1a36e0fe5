// What the package offers as nonobench/worker.
import type {
  Assessment,
  AssessOptions,
  Checked,
  CheckOptions,
  Clues,
  Input,
  OpenOptions,
  Palette,
  Proved,
  ProveOptions,
} from './nonobench.mjs';

/**
 * An open picture, as Bench, in a worker. If the worker is ended, each further call is rejected as
 * 'ended'.
 */
export interface WorkerBench {
  readonly palette: Palette;
  say(lines: Input): Promise<string>;
  close(): Promise<void>;
}

/**
 * An engine in a worker. Its calls are those of Engine as promises, and are answered one after
 * another. One that has no answer within `seconds`, the wait for its turn included, is rejected
 * with a Fault of the kind 'timeout'. If it was running, this ends the worker with its benches; the
 * next call starts a new one.
 */
export class Worker {
  /** `seconds`: above 0, by default 10. */
  constructor(options?: { seconds?: number });
  open(file: Input, options?: OpenOptions): Promise<WorkerBench>;
  check(picture: Input, certificate: Input, options?: CheckOptions): Promise<Checked>;
  assess(puzzle: Input, options?: AssessOptions): Promise<Assessment & { palette: Palette }>;
  prove(picture: Input, options?: ProveOptions): Promise<Proved>;
  clues(file: Input, options?: OpenOptions): Promise<Clues>;
  readonly version: Promise<string>;
  /**
   * Ends the worker; calls without an answer are rejected as 'closed'. The next call starts a new
   * one.
   */
  close(): void;
}
