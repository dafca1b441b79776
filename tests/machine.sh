# Sourced by run.sh. The archive and the programs are for x86-64 Linux. On another machine they are linked by Debian's cross
# compilers and run under its emulator: this installs both where they are missing, and puts them before the machine's own.
if [ "$(uname -m)" != x86_64 ]; then
    tools=$PWD/target/x86-64
    emulator=/proc/sys/fs/binfmt_misc
    if ! [ -x /usr/bin/qemu-x86_64 ] || ! [ -x /usr/bin/x86_64-linux-gnu-g++ ] || ! [ -d /usr/lib/rustlib/x86_64-unknown-linux-gnu ]; then
        dpkg --add-architecture amd64
        apt-get update -qq
        apt-get install -qq -y --no-install-recommends qemu-user gcc-x86-64-linux-gnu g++-x86-64-linux-gnu \
            libc6-dev-amd64-cross rustc-web cargo-web libstd-rust-web-dev:amd64 > /dev/null
    fi
    [ -e "$emulator/register" ] || mount -t binfmt_misc binfmt_misc "$emulator"
    [ -e "$emulator/x86-64" ] || printf '%s' ':x86-64:M::\x7fELF\x02\x01\x01\x00\x00\x00\x00\x00\x00\x00\x00\x00\x02\x00\x3e\x00:\xff\xff\xff\xff\xff\xfe\xfe\x00\xff\xff\xff\xff\xff\xff\xff\xff\xfe\xff\xff\xff:/usr/bin/qemu-x86_64:F' > "$emulator/register"
    mkdir -p "$tools"
    ln -sf /usr/bin/x86_64-linux-gnu-gcc "$tools/gcc"
    ln -sf /usr/bin/x86_64-linux-gnu-g++ "$tools/g++"
    ln -sf /usr/bin/cargo "$tools/cargo"
    ln -sf /usr/bin/rustc "$tools/rustc"
    export PATH="$tools:$PATH" RUSTC=/usr/bin/rustc CARGO_BUILD_TARGET=x86_64-unknown-linux-gnu
    export CARGO_TARGET_X86_64_UNKNOWN_LINUX_GNU_LINKER=x86_64-linux-gnu-gcc
fi
