// What browsers have that the checker doesn't know yet, and what the page's scripts leave behind.
declare class DecompressionStream {
  constructor(format: string);
  readonly readable: ReadableStream<Uint8Array>;
  readonly writable: WritableStream<BufferSource>;
}
interface DataTransferItem {
  getAsFileSystemHandle?(): Promise<FileSystemHandle | null>;
}
declare var aprsbook: any;
declare var aprsfiles: any;
// of Node
declare module "node:fs";
declare module "node:util";
declare module "node:v8";
declare var Buffer: any;
declare var process: any;
interface Navigator {
  readonly userActivation?: { readonly hasBeenActive: boolean };
}
