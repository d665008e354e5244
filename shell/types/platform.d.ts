/** What browsers and node both have beside the language: all that a module for both places may use. */
declare class TextEncoder {
    encode(text?: string): Uint8Array;
}
declare class TextDecoder {
    constructor(name?: string, options?: { fatal?: boolean; ignoreBOM?: boolean });
    readonly encoding: string;
    decode(bytes?: Uint8Array | ArrayBuffer, options?: { stream?: boolean }): string;
}
declare class AbortController {
    readonly signal: AbortSignal;
    abort(): void;
}
declare class AbortSignal {
    readonly aborted: boolean;
    addEventListener(name: "abort", listener: () => void, options?: { once?: boolean }): void;
    removeEventListener(name: "abort", listener: () => void): void;
    throwIfAborted(): void;
}
declare const performance: { now(): number };
declare function atob(text: string): string;
declare function btoa(text: string): string;
declare function queueMicrotask(does: () => void): void;
declare class Blob {
    constructor(parts: (Uint8Array | string)[], options?: { type?: string });
    stream(): ByteStream;
}
declare class Response {
    constructor(body: ByteStream);
    text(): Promise<string>;
    arrayBuffer(): Promise<ArrayBuffer>;
}
interface ByteStream {
    pipeThrough(through: unknown): ByteStream;
}
declare class DecompressionStream {
    constructor(form: "gzip");
}
declare class CompressionStream {
    constructor(form: "gzip");
}
