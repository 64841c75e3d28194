# Read by the scripts beside it: finds the shared object, the header's folder and the SystemVerilog package.
top=$(dirname -- "$(dirname -- "$here")")
library=${LOCKUP_LIBRARY:-}
include=$top/include
package=$top/systemverilog
if [ ! -f "$include/lockup.h" ]; then
    # installed: PREFIX/share/doc/lockup/examples/cosim
    prefix=$(dirname -- "$(dirname -- "$(dirname -- "$top")")")
    include=$prefix/include
    package=$prefix/share/lockup/systemverilog
    library=${library:-$prefix/lib/liblockup.so}
fi
library=${library:-$top/crates/lockup_c/out/liblockup.so}
if [ ! -f "$library" ]; then
    echo "examples/cosim: there is no library at $library: tools/library builds it" >&2
    exit 2
fi
