// For tsc alone: what the host of a system uses of node, beside what node.d.ts and terminal.d.ts have.
declare module "node:fs" {
  export function fdatasync(file: number, done: (problem: Error | null) => void): void;
  export function fsyncSync(file: number): void;
  export function ftruncateSync(file: number, length: number): void;
  export function mkdirSync(path: string, options: {recursive?: boolean}): void;
  export function renameSync(from: string, to: string): void;
  export function unlinkSync(path: string): void;
}
declare module "node:net" {
  export interface Socket {
    readonly writableLength: number;
    write(data: string | Uint8Array, encoding?: string): boolean;
    on(event: string, act: (...some: any[]) => void): Socket;
    pause(): void;
    resume(): void;
    end(data?: string, done?: () => void): void;
    destroy(): void;
    setNoDelay(isOn: boolean): void;
    setKeepAlive(isOn: boolean, milliseconds: number): void;
  }
  export interface Server {
    listen(port: number, address: string): void;
    address(): {port: number};
    on(event: string, act: (...some: any[]) => void): void;
    close(): void;
  }
  export function createServer(options: {allowHalfOpen?: boolean}, act: (socket: Socket) => void): Server;
}
