// For tsc alone: what the terminal and its checks use of node, beside what node.d.ts has.
declare module "node:fs" {
  export function openSync(path: string, flags: string): number;
  export function closeSync(file: number): void;
  export function mkdtempSync(start: string): string;
  export function cpSync(from: string, to: string, options: {recursive?: boolean}): void;
  export function rmSync(path: string, options: {recursive?: boolean, force?: boolean}): void;
}
declare module "node:os" {
  const os: {homedir(): string, tmpdir(): string, constants: {signals: Record<string, number>}};
  export default os;
}
declare module "node:tty" { export function isatty(file: number): boolean; }
interface AtTerminal {
  stdin: {isTTY?: boolean, setRawMode(isRaw: boolean): void, resume(): void, pause(): void, destroy(): void, on(event: string, act: (...some: any[]) => void): void};
  stdout: {isTTY?: boolean, getWindowSize(): [number, number]};
  cwd(): string;
  kill(process: number, signal: string): void;
  removeAllListeners(event: string): void;
}
declare function setImmediate(act: (value?: any) => void): void;
