# To be sourced: how programs over the archive are built and run. The archive is for x86-64; on another machine C is cross-compiled and
# an emulator runs the result. Sets, each empty where there is none:
#   x86_64_cc        the C compiler for x86-64, and $x86_64_no_cc says what is missing
#   x86_64_run       the emulator to put before a program, and $x86_64_no_run says what is missing
machine=$(uname -m)
x86_64_cc='' x86_64_no_cc='' x86_64_run='' x86_64_no_run=''

if [ "$machine" = x86_64 ]; then
    for name in cc gcc clang; do
        if command -v "$name" >/dev/null; then x86_64_cc=$name; break; fi
    done
    [ -n "$x86_64_cc" ] || x86_64_no_cc="no C compiler (cc, gcc or clang); on Debian: apt install gcc libc6-dev"
else
    if command -v x86_64-linux-gnu-gcc >/dev/null; then
        x86_64_cc=x86_64-linux-gnu-gcc
    else
        x86_64_no_cc="no C compiler for x86-64 (x86_64-linux-gnu-gcc); on Debian: apt install gcc-x86-64-linux-gnu"
    fi
    x86_64_run=$(command -v qemu-x86_64) || x86_64_no_run="no emulator of x86-64 for this machine, $machine (qemu-x86_64); on Debian: apt install qemu-user"
fi
