// Uses every type that the package for npm names, for TypeScript's compiler alone:
// tsc --noEmit --strict.
import { Fault, load } from 'nonobench';
import { Worker } from 'nonobench/worker';
import type { WorkerBench } from 'nonobench/worker';
import type {
  Bench,
  CheckOptions,
  Checked,
  Clues,
  Engine,
  Input,
  OpenOptions,
  Palette,
  Place,
  ProveOptions,
  Proved,
} from 'nonobench';

const options: OpenOptions = { history: 100, background: null, format: 'ppm' };

function answer(engine: Engine, picture: Input): string {
  const bench: Bench = engine.open(picture, options);
  try {
    return bench.say('verdict\n');
  } finally {
    bench.close();
  }
}

function colours(engine: Engine, picture: Input): Palette {
  const { palette }: Clues = engine.clues(picture);
  const [red, green, blue] = engine.assess(picture).palette['.'] ?? [0, 0, 0];
  return { ...palette, '.': [red, green, blue] };
}

function proved(
  engine: Engine,
  picture: Input,
  options: ProveOptions,
  published: CheckOptions,
): Checked | string {
  const found: Proved = engine.prove(picture, options);
  if (found.ruling !== 'unique') return found.ruling;
  return engine.check(picture, found.certificate, published);
}

export async function tried(
  picture: Uint8Array,
  certificate: string,
  published: Place[],
): Promise<Checked | string> {
  const engine = await load();
  const other: Engine = await load(new Uint8Array(0).buffer);
  try {
    const checked: Checked = engine.check(picture, certificate, { published });
    const { accepted, status, text }: { accepted: boolean; status: number; text: string } = checked;
    if (accepted) return checked;
    const letters = Object.keys(colours(engine, picture));
    const answers = [answer(engine, picture), proved(other, picture, {}, {})];
    return `${status} ${text} ${other.version} ${letters} ${answers}`;
  } catch (fault) {
    if (!(fault instanceof Fault)) return String(fault);
    return `${fault.kind} ${fault.name} ${fault.byte ?? fault.line}: ${fault.text}`;
  }
}

export async function inTime(picture: Uint8Array, module: WebAssembly.Module): Promise<string> {
  const worker = new Worker({ seconds: 5 });
  try {
    const bench: WorkerBench = await worker.open(picture, options);
    const { fit } = await worker.assess(picture, { allowance: 100 });
    const versions = [await worker.version, (await load(module)).version];
    return `${fit} ${await bench.say('clues\n')} ${versions}`;
  } finally {
    worker.close();
  }
}
