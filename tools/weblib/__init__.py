"""What tools/web does: the way from the proved crate its_web to a WebAssembly module. It goes round the kit, which does not compile a crate
with a heap for WebAssembly yet; a kit that does makes this folder needless."""
