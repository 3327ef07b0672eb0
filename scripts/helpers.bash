# What .ci/setup and the checks share. Each sources it at the top, with set -Eeuo pipefail, and then runs at the top of the
# repository.

cd "$(dirname "${BASH_SOURCE[0]}")/.."
export LC_ALL=C
work=$(mktemp -d)
trap 'rm -rf "$work"' EXIT
trap 'echo "$0: line $LINENO fails" >&2' ERR
read -r version <VERSION
# The name of the packages for Rust, Python and npm.
package=$(sed -n 's/^name = "\(.*\)"$/\1/p;T;q' rust/Cargo.toml)
# No setting of the user's, and no network: pip takes Debian's files.
unset CC CFLAGS COPT CPATH CPPFLAGS CXX CXXFLAGS DESTDIR LDFLAGS LDSHARED LIBRARY_PATH MAKEFLAGS MFLAGS MODULE \
    NODE_OPTIONS NODE_PATH PG_CONFIG PKG_CONFIG_PATH PYTHONPATH SOURCE_DATE_EPOCH docdir libdir prefix
export CARGO_NET_OFFLINE=true PIP_NO_INDEX=1 PIP_FIND_LINKS=/usr/share/python-wheels PYTHONDONTWRITEBYTECODE=1 \
    npm_config_offline=true npm_config_cache=$work/cache npm_config_userconfig=$work/npmrc npm_config_audit=false \
    npm_config_fund=false npm_config_update_notifier=false

# What the checks need besides the kit: `make setup` installs these,
required=(black build cargo cargo-clippy clang clang-format clang-tidy cmake ensurepip g++ gcc git gmpy2 make mypy node npm
    pg_virtualenv pip pkg-config postgres postgres.h Python.h python3 /usr/bin/python3 reuse rustfmt script shfmt sqlite3
    sqlite3ext.h tsc uuidgen wheel)
# and `make setup-full` these too.
optional=(aarch64-linux-gnu-gcc acorn arm-linux-gnueabihf-gcc babeljs chromium cvc4 cvc5 debootstrap distributed django duckdb esbuild
    express firefox-esr fish frama-c gawk gmp.h go help2man i686-linux-gnu-gcc jsc librust mlr mmdebstrap node-base62 ocamlfind pandas
    pyarrow pydantic qemu-aarch64 qemu-arm qemu-i386 qemu-riscv64 qemu-s390x riscv64-linux-gnu-gcc rollup ruby-base62
    s390x-linux-gnu-gcc shortuuid sqlalchemy why3 wine x86_64-w64-mingw32-gcc z3 zsh)
# The packages of Debian that have them, where their names are others.
declare -A packages=(
    [acorn]=node-acorn [build]=python3-build [distributed]=python3-distributed [django]=python3-django [ensurepip]=python3-venv
    [express]=node-express [gmp.h]=libgmp-dev [gmpy2]=python3-gmpy2 [pandas]=python3-pandas [pip]=python3-pip [pyarrow]=python3-pyarrow
    [pydantic]=python3-pydantic [Python.h]=python3-dev ['/usr/bin/python3']=python3 [shortuuid]=python3-shortuuid
    [sqlalchemy]=python3-sqlalchemy [wheel]=python3-wheel-whl ['cargo-clippy']=rust-clippy
    [clang]='clang libclang-rt-dev' [gcc]='gcc libc6-dev' [go]=golang-go [duckdb]='duckdb libduckdb-dev' [mlr]=miller
    [babeljs]=node-babel7 [jsc]=libjavascriptcoregtk-4.0-bin
    [node]=nodejs [script]=bsdutils [tsc]=node-typescript [pg_virtualenv]=postgresql-common
    [postgres]=postgresql [postgres.h]=postgresql-server-dev-all [sqlite3ext.h]=libsqlite3-dev ['frama-c']=frama-c-base
    [ocamlfind]=ocaml-findlib [wine]='wine wine64' [librust]='librust-serde-dev librust-uuid-dev'
    [uuidgen]=uuid-runtime ['x86_64-w64-mingw32-gcc']=gcc-mingw-w64-x86-64
    ['aarch64-linux-gnu-gcc']='gcc-aarch64-linux-gnu libc6-dev-arm64-cross' ['qemu-aarch64']=qemu-user
    ['arm-linux-gnueabihf-gcc']='gcc-arm-linux-gnueabihf libc6-dev-armhf-cross' ['qemu-arm']=qemu-user
    ['i686-linux-gnu-gcc']='gcc-i686-linux-gnu libc6-dev-i386-cross' ['qemu-i386']=qemu-user
    ['riscv64-linux-gnu-gcc']='gcc-riscv64-linux-gnu libc6-dev-riscv64-cross' ['qemu-riscv64']=qemu-user
    ['s390x-linux-gnu-gcc']='gcc-s390x-linux-gnu libc6-dev-s390x-cross' ['qemu-s390x']=qemu-user
)
# The oldest Rust that the crate is for, and the folder for the oldest one of Debian that can.
oldest_rust=$(sed -n 's/^rust-version = "\(.*\)"$/\1/p' rust/Cargo.toml)
old_rust=${XDG_CACHE_HOME:-~/.cache}/base62-rust
# The root of Debian testing, which scripts/fetch-testing makes.
testing=${XDG_CACHE_HOME:-~/.cache}/base62-testing

# VERSION VERSION. Whether the first is not after the second.
in_order() {
    printf '%s\n' "$@" | sort --check=quiet --version-sort
}

# TOOL. Its version.
version_of() {
    [[ $("$1" --version) =~ (^|\ )v?([0-9]+(\.[0-9]+)*) ]] && echo "${BASH_REMATCH[2]}"
}

# NAME TEXT. Says with which version of a tool a check has passed. The text is what the tool prints of it.
passed_with() {
    [[ $2 =~ [0-9]+(\.[0-9]+)? ]]
    echo "passed with: $1 ${BASH_REMATCH[0]}"
}

# THING, by its name there.
is_installed() {
    case $1 in
        # Of the system's Python, if there is one: Debian's setuptools works with no other.
        build | distributed | django | ensurepip | gmpy2 | pandas | pip | pydantic | shortuuid | sqlalchemy) PATH=/usr/bin:$PATH python3 -c "import $1" ;;
        duckdb) command -v duckdb || [[ -e $testing/fetched ]] ;;
        pyarrow) PATH=/usr/bin:$PATH python3 -c "import pyarrow" || [[ -e $testing/fetched ]] ;;
        cargo) in_order "$oldest_rust" "$(version_of cargo)" ;;
        cargo-clippy | rustfmt) is_installed cargo && command -v "$1" ;;
        # Debian's file, which serves each Python without a network.
        wheel) compgen -G '/usr/share/python-wheels/wheel-*.whl' ;;
        librust) compgen -G '/usr/share/cargo/registry/uuid-*' ;;
        acorn | express) [[ -e /usr/share/nodejs/$1 ]] ;;
        node-base62) is_installed node && [[ -e /usr/share/nodejs/base62 ]] ;;
        gmp.h) gcc -fsyntax-only -xc - <<<'#include <gmp.h>' ;;
        ruby-base62) ruby -r base62 -e '' ;;
        Python.h) python3 -c 'import os, sysconfig; os.stat(sysconfig.get_path("include") + "/Python.h")' ;;
        postgres) compgen -G '/usr/lib/postgresql/*/bin/postgres' ;;
        postgres.h) compgen -G '/usr/include/postgresql/*/server/postgres.h' ;;
        sqlite3ext.h) [[ -e /usr/include/sqlite3ext.h ]] ;;
        *) command -v "$1" ;;
    esac >/dev/null 2>&1
}

# OPTION.. SUITE FOLDER [MIRROR]. Makes a root of Debian, with this machine's settings of apt for its network.
make_root() {
    apt-config dump | grep -E '^Acquire::(https?|Check|Retries)' >"$work/apt.conf" || true
    mmdebstrap --quiet --aptopt="$work/apt.conf" "$@"
}

# COMMAND.. Runs a command in the root of Debian testing, at /srv, which is the current folder. /mnt is $work. What is
# mounted there ends with it. Without root this needs user namespaces.
in_testing() {
    local user=()
    ((EUID == 0)) || user=(--map-root-user)
    unshare --mount "${user[@]}" bash -euc '
        for folder in proc sys dev; do mount --rbind "/$folder" "$0/$folder"; done
        mount --bind . "$0/srv"
        mount --bind "$1" "$0/mnt"
        exec chroot "$0" env -i --chdir=/srv PATH=/usr/sbin:/usr/bin:/sbin:/bin HOME=/mnt LC_ALL=C.UTF-8 \
            PYTHONDONTWRITEBYTECODE=1 "${@:2}"' \
        "$testing" "$work" "$@"
}

# COMMAND.. Runs a command beside a server of its own, which takes extensions from $work/server.
with_postgresql() {
    local release folder=$work/server options
    release=$(cd /usr/lib/postgresql && printf '%s\n' * | sort -V | tail -1)
    # PostgreSQL itself takes extensions from another folder since version 18, and that of Debian before.
    options=(-o "extension_destdir=$folder")
    ((release < 18)) || options=(-o "extension_control_path=$folder/usr/share/postgresql/$release:\$system"
        -o "dynamic_library_path=$folder/usr/lib/postgresql/$release/lib:\$libdir")
    chmod 755 "$work"
    export work
    # Several checks may run at a time: each takes another port, and none that a client is given.
    pg_virtualenv -t -c "--port=$((10000 + $$ % 20000))" "${options[@]}" "$@"
}

# WHAT THING.. Says what is left out for lack of them, and the command that brings them. Under CI the check ends here.
skip() {
    local thing command='make setup' wanted=()
    for thing in "${@:2}"; do
        [[ " ${optional[*]} " != *" $thing "* ]] || command='make setup-full'
        wanted+=("${packages[$thing]-$thing}")
        [[ $thing != cargo || ! $(command -v cargo) ]] || wanted[-1]+=" ($(version_of cargo) is too old: $oldest_rust or later)"
    done
    echo "left out: $1: $command installs ${wanted[*]}"
    [[ ! ${CI-} ]] || exit 1
}

# THING.. If any is missing, the check is skipped.
needs() {
    local thing missing=()
    for thing; do
        is_installed "$thing" || missing+=("$thing")
    done
    [[ ${missing[*]} ]] || return 0
    skip "$0" "${missing[@]}"
    echo '0 passed, 0 failed, 1 skipped'
    exit
}

# THING WHAT. Whether the thing is here. If not, WHAT is left out.
has() {
    is_installed "$1" || ! skip "$2" "$1"
}

# The compilers and linters of the gate, by the version whose warnings fail a check. Each version has rules of its own, so
# those of any other one are only printed.
declare -A pinned=([black]=23.1 [cargo]=1.95 [clang]=14 ['clang-format']=14 ['clang-tidy']=14 [gcc]=12 [mypy]=1.0 [shfmt]=3.6)

# TOOL. Whether its warnings fail a check.
is_strict() {
    [[ $(version_of "$1"). = "${pinned[${1/#*-gcc/gcc}]}".* ]]
}

# COMPILER. Its option by which warnings fail a check.
werror() {
    ! is_strict "$1" || echo -Werror
}

# TOOL COMMAND.. Runs the command, which may fail if the tool is not strict.
lint() {
    ("${@:2}") || ! is_strict "$1"
}

# FOLDER. Copies into it the files and links as they are: those that git knows or would add.
copy_files() {
    local file
    git ls-files -z --cached --others --exclude-standard | while IFS= read -rd '' file; do
        [[ ! -e $file ]] || printf '%s\0' "$file"
    done | xargs -0 cp -d --parents -t "$1"
}

# FOLDER. Makes there a repository of the files as they are.
make_repository() {
    git init --quiet "$1"
    copy_files "$1"
    git -C "$1" add .
    git -C "$1" -c user.name=base62 -c user.email=base62@localhost commit --quiet -m base62
}

# Fails if cargo has warned as it ran quietly, and is strict.
warns_of_nothing() {
    ! grep -A 9 '^warning' "$work/said" >&2 || ! is_strict cargo || exit 1
}

# REPOSITORY. Whether Cargo can fetch it: Cargo 1.96 of Debian 12 cannot use the libgit2 of Debian 12.
can_fetch() {
    local said
    said=$(CARGO_NET_OFFLINE=false cargo install --git "file://$1" --root "$work/none" none 2>&1) || true
    [[ $said != *git_proxy_options* ]] || ! echo 'left out: what Cargo fetches with git, which this one cannot'
}

# COMMAND.. What it prints is shown if it fails, and else what a compiler warns of.
quietly() {
    "$@" >"$work/said" 2>&1 || {
        cat "$work/said" >&2
        exit 1
    }
    grep ': warning: ' "$work/said" >&2 || true
}

# COMMAND.. Fails unless the command does. $work/said has what it prints.
fails() {
    ! ("$@") >"$work/said" 2>&1 || { echo "it does not fail: $*" >&2 && exit 1; }
}

# PATTERN COMMAND.. The same for a command that has to print the pattern.
fails_with() {
    fails "${@:2}"
    grep -q -- "$1" "$work/said" || { echo "it does not print $1: ${*:2}" >&2 && exit 1; }
}

# COMMAND.. Runs tests, one of which has to pass. The runners end well if they find none: unittest, doctest -v, Node's,
# Cargo's and PostgreSQL's.
run_tests() {
    quietly "$@"
    grep -qE '^Ran [1-9]|^[1-9][0-9]* passed|^(#|ℹ) pass [1-9]|^test result: ok\. [1-9]|All [1-9][0-9]* tests' "$work/said" || {
        echo "no test has passed: $*" >&2
        exit 1
    }
}
