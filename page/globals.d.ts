// What browsers have and the compiler's library does not know, and what only some of them have.
interface Window { showOpenFilePicker?: any; showSaveFilePicker?: any; [name: string]: any }
declare const OffscreenCanvas: any;
declare const DecompressionStream: any;
declare const CompressionStream: any;
declare function showOpenFilePicker(options?: any): Promise<any>;
declare function showSaveFilePicker(options?: any): Promise<any>;
interface DataTransferItem { getAsFileSystemHandle?(): Promise<any> }
interface Array<T> { findLast(holds: (one: T, at: number) => boolean): T | undefined }
declare const LIMITS: { side: number; colours: number; history: number };
declare var HAS_TEXTS_APART: boolean | undefined;

// The values that a text has places for (texts/phrase.js): `{name}`, or `{name|form|form}`.
type NameOf<Inside extends string> = Inside extends `${infer Name}|${string}` ? Name : Inside;
type HolesOf<Text extends string> = Text extends `${string}{${infer Inside}}${infer Rest}`
  ? NameOf<Inside> | HolesOf<Rest>
  : never;
type ValuesOf<Text extends string> = [HolesOf<Text>] extends [never]
  ? []
  : [{ [name in HolesOf<Text>]: string | number }];
