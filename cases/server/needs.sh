# What the scripts of this folder need: `python` becomes a Python 3 that has the package `websockets`. A Debian package that is
# missing is installed where this may be done, else the script ends and says which.

# Python leaves nothing behind in this folder.
export PYTHONDONTWRITEBYTECODE=1

install_or_say() { # PACKAGE
    if [ "$(id -u)" = 0 ] && command -v apt-get > /dev/null; then
        echo "cases/server: installing the package $1" >&2
        apt-get install -y "$1" > /dev/null 2>&1 || { apt-get update > /dev/null 2>&1 && apt-get install -y "$1" > /dev/null 2>&1; } || true
    fi
}

with_websockets() {
    for python in python3 /usr/bin/python3; do
        command -v "$python" > /dev/null && "$python" -c 'import websockets' 2> /dev/null && return
    done
    return 1
}

need_websockets() {
    with_websockets || install_or_say python3-websockets
    with_websockets || { echo 'cases/server: the package python3-websockets is missing' >&2; exit 1; }
}

need_chromium() {
    command -v chromium > /dev/null || install_or_say chromium
    command -v chromium > /dev/null || { echo 'cases/server: the package chromium is missing' >&2; exit 1; }
}

need_python() {
    python=python3
    command -v "$python" > /dev/null || { echo 'cases/server: the command python3 is missing' >&2; exit 1; }
}

# Proves and builds the program where it isn't built, so that no start waits for it. `DDSERVE` names another built program.
need_program() {
    "${DDSERVE:-$here/../../ddserve}" serve --help > /dev/null
}
