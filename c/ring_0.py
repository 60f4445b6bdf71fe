#!/usr/bin/env python3
"""clang for ring 0: compiles the module that it is given with no red zone below the stack pointer and with no register but the general
ones, so that interrupts may be taken in the midst of a call by handlers that keep the general registers alone. All else is as the words
say."""
import os
import re
import subprocess
import sys

FLAGS = ['-mno-red-zone', '-mgeneral-regs-only']
FEATURES = '"target-features"="-sse,-sse2,-sse3,-ssse3,-sse4.1,-sse4.2,-avx,-mmx,-x87,+soft-float"'


def in_ring_0(text):
    """The module with these attributes on each function; a stack probe, which asks for a guard page, is left out."""
    text = re.sub(r' "(target-features|probe-stack|stack-probe-size)"="[^"]*"', '', text)
    return re.sub(r'^(attributes #\d+ = \{)(.*)\}$', rf'\1\2noredzone {FEATURES} }}', text, flags=re.M)


def main():
    """In place of clang: SPECK_CLANG names the one to call."""
    clang, words = os.environ['SPECK_CLANG'], sys.argv[1:]
    modules = [it for it in words if it.endswith(('.bc', '.ll')) and os.path.isfile(it)]
    if '-c' not in words or len(modules) != 1:
        os.execv(clang, ['clang', *words])
    at = f'{modules[0]}.ring_0.ll'
    subprocess.run([clang, '--no-default-config', '-x', 'ir', modules[0], '-S', '-emit-llvm', '-Xclang', '-disable-llvm-passes', '-o', at], check=True)
    with open(at) as it:
        text = in_ring_0(it.read())
    with open(at, 'w') as it:
        it.write(text)
    os.execv(clang, ['clang', *[at if it == modules[0] else it for it in words], *FLAGS])


if __name__ == '__main__':
    main()
