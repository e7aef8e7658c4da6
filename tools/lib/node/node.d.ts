// For tsc alone: what the commands use of node. Debian's node-typescript comes without its types.
declare module "node:fs" {
  export function readFileSync(path: string | number): Buffer;
  export function readFileSync(path: string | number, encoding: string): string;
  export function writeFileSync(path: string, data: string | Buffer): void;
  export function writeSync(file: number, data: string | Uint8Array): number;
  export function readSync(file: number, data: Uint8Array): number;
  export function existsSync(path: string): boolean;
  export function mkdtempSync(start: string): string;
  export function rmSync(path: string, options: object): void;
  export function readdirSync(path: string): string[];
  export function statSync(path: string): {isDirectory(): boolean};
}
declare module "node:path" {
  const path: {dirname(path: string): string, resolve(...parts: string[]): string, join(...parts: string[]): string,
               basename(path: string, ending?: string): string, extname(path: string): string, relative(from: string, to: string): string};
  export default path;
}
declare module "node:url" { export function fileURLToPath(url: string): string; }
declare module "node:zlib" { export function gunzipSync(bytes: Buffer): Buffer; }
declare module "node:process" {
  const process: {argv: string[], exitCode: number | undefined, exit(status: number): never, on(event: string, act: (...some: any[]) => void): void,
                  pid: number, env: Record<string, string | undefined>, send?(message: object): void} & AtTerminal;
  export default process;
}
declare module "node:child_process" {
  export function spawnSync(program: string, words: string[], options: object):
    {status: number | null, signal: string | null, stdout: Buffer, stderr: Buffer, error?: Error};
  export function spawn(program: string, words: string[], options: object): any;
  export function fork(module: string, words: string[], options: object): any;
}
declare module "node:os" {
  export function cpus(): object[];
  export function tmpdir(): string;
}
interface Buffer extends Uint8Array {
  toString(encoding?: string): string;
  subarray(from?: number, to?: number): Buffer;
}
declare const Buffer: {from(data: string | Uint8Array, encoding?: string): Buffer, concat(parts: Buffer[]): Buffer};
interface ImportMeta { url: string; }
