# kit.sh - the kit that `rt` belongs to: leaves its folder in `kit`, and in `tools` that of its clang. To be read by `.`.
[ -n "$(command -v rt)" ] || { echo "there is no rt: this needs the Rattle kit" >&2; exit 1; }
kit=$(rt doc)
kit=${kit%/*}
tools=$kit/toolchain/bin
[ -x "$tools/clang" ] && [ -x "$kit/bin/rattle" ] || { echo "there is no Rattle kit at $kit" >&2; exit 1; }
