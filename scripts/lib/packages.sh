# What a script takes from Debian's packages; it sources this at the top of the repository.

# Installs the packages $@, as root, one script after another, and after whoever else installs some. What apt-get says goes where this function's output goes.
install_packages() {
    local waiting=(-o DPkg::Lock::Timeout=600)
    (
        flock 9
        apt-get install -y "${waiting[@]}" "$@" || { apt-get update "${waiting[@]}" && apt-get install -y "${waiting[@]}" "$@"; }
    ) 9< scripts/lib/packages.sh
}
