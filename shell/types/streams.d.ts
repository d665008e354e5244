/** What node has and its types of this version don't know yet. */
declare class DecompressionStream {
    constructor(form: "gzip");
    readonly readable: any;
    readonly writable: any;
}
declare class CompressionStream {
    constructor(form: "gzip");
    readonly readable: any;
    readonly writable: any;
}
