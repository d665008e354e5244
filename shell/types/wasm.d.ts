/** WebAssembly, as far as the shell uses it: for settings that see neither a browser's types nor those of node that have it. */
declare namespace WebAssembly {
    class Module {
        constructor(bytes: Uint8Array);
    }
    class Instance {
        constructor(module: Module, imports: Record<string, Record<string, Function>>);
        readonly exports: Record<string, unknown>;
    }
    interface Memory {
        readonly buffer: ArrayBuffer;
    }
    function compile(bytes: Uint8Array): Promise<Module>;
}
