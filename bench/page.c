/* What is linked behind this begins a page. Each contender has its own: how fast code runs also depends on where it lies, and an
 * emulator takes long over a jump from page to page. */
__asm__(".text\n.p2align 12\n");
