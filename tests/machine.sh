# How a test compiles C for the toolchain's archive, which is for x86-64: natively or across; tools/run runs what it makes. Sets CC, CXX,
# and lib, the archive's folder. What is not there is installed where that can be done, and asked for where it cannot.
if [ "$(uname -m)" = x86_64 ]; then
    CC=${CC:-gcc} CXX=${CXX:-g++} packages=(gcc g++) lib=target/tsivelaro/lib
else
    CC=x86_64-linux-gnu-gcc CXX=x86_64-linux-gnu-g++ packages=(gcc-x86-64-linux-gnu g++-x86-64-linux-gnu) lib=target/tsivelaro/lib/x86_64-linux-gnu
fi
if ! { command -v "$CC" && command -v "$CXX"; } >/dev/null; then
    echo "$0: $CC or $CXX is not there; they come with Debian's packages ${packages[*]}"
    [ "$(id -u)" = 0 ] && command -v apt-get >/dev/null || exit 1
    { apt-get -qq update && apt-get -qq install -y "${packages[@]}"; } >/dev/null 2>&1 || { echo "$0: they could not be installed"; exit 1; }
fi
