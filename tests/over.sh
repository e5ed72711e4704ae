# Sourced by the scripts that build C over the library.
lib=target/staticlib/libifc.a

# A crate's archive under the name that C links; what its making prints is shown if it fails. As that says nothing for minutes, a line
# comes first, unless the archive is newer than every source.
make_library() {
    mkdir -p target/tests target/staticlib
    archive=target/staticlib/lib$1.a
    crate=$1_c
    if [ -f "$archive" ] && [ -z "$(find crates crates.txt -path '*/out' -prune -o -newer "$archive" -type f -print | head -n 1)" ]; then return; fi
    echo "making lib$1.a: what is not proved yet is proved first, which may take some minutes"
    (cd "crates/$crate" && rt lib) >target/tests/staticlib.log 2>&1 || { cat target/tests/staticlib.log; exit 1; }
    cp "crates/$crate/out/lib$crate.a" "$archive"
}
