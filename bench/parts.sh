# Sourced by scripts that prove a program of their own. copy_parts PARTS CRATE copies what stands in a folder of bench/ to a crate in
# the folder of the script, and takes `.txt` off the name of each file: a file of code stands in a crate alone, and is proved there.
copy_parts() {
    local part to
    for part in $(cd "$here/$1" && find . -name '*.txt'); do
        to="$folder/crates/$2/${part%.txt}"
        mkdir -p "$(dirname "$to")"
        cp "$here/$1/$part" "$to"
    done
}
