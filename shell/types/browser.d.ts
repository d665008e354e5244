/** What browsers have and these types don't know yet. */
declare class DecompressionStream implements GenericTransformStream {
    constructor(form: "gzip");
    readonly readable: ReadableStream;
    readonly writable: WritableStream;
}
declare class CompressionStream implements GenericTransformStream {
    constructor(form: "gzip");
    readonly readable: ReadableStream;
    readonly writable: WritableStream;
}
