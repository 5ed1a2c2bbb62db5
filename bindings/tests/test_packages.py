"""Makes the packages of a release, here and elsewhere as another user, and inspects each. Each package by
itself, without the toolchain and this repository, runs the first lines of the pages (debian/tests), and leaves nothing
when it is removed. The archive of the sources makes all the others. The registries' tools take them. Fresh systems of
other releases install them, and switch to our libargon2 and back."""

import http.server
import json
import os
import re
import shutil
import tempfile
import threading
from pathlib import Path

import pytest
from machines import machines
from packaging.version import Version
from running import (
    CRATES_OF_DEBIAN,
    MACHINE,
    SHELL_THERE,
    TOP,
    VERSION,
    first_lines,
    in_namespace,
    in_system,
    make_system,
    needs,
    project,
    refuses,
    run,
    start,
)

PROJECT = dict(re.findall(r'^(\w+): (.+)$', (TOP / 'PROJECT').read_text(encoding='utf-8'), re.M))
DEBS = {  # what each requires, and the page that it has besides the common ones
    'libproved-argon2-1': ('libc6 (>= 2.34)', ''), 'proved-argon2': ('libc6 (>= 2.34)', 'docs/SHELL.md'),
    'libproved-argon2-dev': (f'libproved-argon2-1 (= {VERSION}-1)', 'docs/C.md'),
    'proved-libargon2-1': ('libc6 (>= 2.34)', 'docs/LIBARGON2.md'),
    'proved-libargon2-dev': (f'proved-libargon2-1 (= {VERSION}-1), libc6-dev', 'docs/LIBARGON2.md'),
}
ASKS = {f'{name}_{VERSION}-1_{of}.deb': what for name, what in DEBS.items() for of in ('amd64', 'arm64')}
ASKS[f'python3-proved-argon2_{VERSION}-1_all.deb'] = (
    f'python3:any, libproved-argon2-1 (>= {VERSION}-1)', 'docs/PYTHON.md')
# The files that dpkg reads, or runs as root, for a package, besides `control` and `md5sums`: a file's lines, or the
# text of Debian's from which dh_python3 makes a script.
TOLD = {
    'libproved-argon2-1': {'shlibs': f'libproved_argon2 1 libproved-argon2-1 (>= {VERSION})'},
    'proved-libargon2-1': {'shlibs': 'libargon2 1 libargon2-1 (>= 0~20171227)'},
    'python3-proved-argon2': {name: Path(f'/usr/share/debhelper/autoscripts/{name}-{text}')
                              for name, text in (('postinst', 'py3compile'), ('prerm', 'py3clean'))}}
# A version whose second number grew has new calls, so programs that are linked with it depend on it.
SYMBOLS = re.compile(r'(libproved_argon2|libargon2)\.so\.1 [\w-]+ #MINVER#\n(\* Build-Depends-Package: [\w-]+\n)?'
                     rf'( \w+@\w+ ({re.escape(VERSION.rpartition(".")[0])}\.0|0~20171227)\n)+')
WHEELS = [f'proved_argon2-{VERSION}-py3-none-manylinux_2_34_{of}.whl'
          for of in ('x86_64.musllinux_1_2_x86_64', 'aarch64')]
TARBALLS = [f'proved-argon2-{VERSION}-{machine}.tar.gz' for machine in machines()]
CRATE, NPM = (f'proved-argon2-{VERSION}.{end}' for end in ('crate', 'tgz'))
JAR, _, DOCUMENTATION = JARS = [f'proved-argon2-{VERSION}{end}.jar' for end in ('', '-sources', '-javadoc')]
POM = f'proved-argon2-{VERSION}.pom'
GO, SDIST = f'proved-argon2-go-{VERSION}.zip', f'proved_argon2-{VERSION}.tar.gz'
SOURCE = f'proved-argon2-{VERSION}-source.tar.gz'
TRAITS = f'proved-argon2-password-hash-{VERSION}.crate'
NAMES = [*ASKS, *WHEELS, SDIST, *TARBALLS, CRATE, TRAITS, NPM, GO, *JARS]
DSC = f'proved-argon2_{VERSION}-1.dsc'
# These are made too: archives that are inspected by themselves, and what describes a package.
OTHERS = [SOURCE, DSC, f'proved-argon2_{VERSION}-1.debian.tar.xz', f'proved-argon2_{VERSION}.orig.tar.gz', POM,
          *(f'proved-argon2-go-{VERSION}.{end}' for end in ('bundle', 'info', 'mod'))]
STORED = '$argon2i$v=19$m=256,t=2,p=1$c29tZXNhbHQ$iekCn0Y3spW+sCcFanM2xBT63UP2sghkUoHLIUpWRS8'
PAPERS = {CRATE: CRATE[:-6], TRAITS: TRAITS[:-6], SDIST: f'proved_argon2-{VERSION}', NPM: 'package',
          GO: f'*/*/argon2@v{VERSION}', **dict.fromkeys(JARS, 'META-INF'),
          **dict.fromkeys(WHEELS, '*.dist-info/licenses'),
          **dict.fromkeys(TARBALLS, 'usr/local/share/doc/proved-argon2')}
ZIPS = '.whl', '.zip', '.jar'
LISTS = {'.deb': ['dpkg-deb', '-c'], **dict.fromkeys(ZIPS, ['zipinfo'])}
UNPACKS = {'.deb': 'dpkg-deb -x {} {}', **dict.fromkeys(ZIPS, 'unzip -q {} -d {}')}
ENTRY = re.compile(r'^([-dl])([-rwxst]{9}) +(\S+) .*? (?:\./)?([^ ]+?)(?: -> .*)?$', re.M)
PROGRAMS = re.compile(r'(^|/)(bin/proved-argon2|argon2_tool|share/proved-argon2/uninstall)$')
OF_ALL = ['README.md', 'SECURITY.md', 'docs/CLAIMS.md', 'docs/USE.md']
pytestmark = pytest.mark.skipif(os.geteuid() != 0, reason='that takes root, and namespaces')


def read(file):
    return Path(file).read_text(encoding='utf-8')


def copy_tree(folder):
    """Returns what users get of the repository, without built files."""
    return shutil.copytree(TOP, folder, symlinks=True, ignore=shutil.ignore_patterns('out', 'target', '.git'))


# A repository with one signed commit, without what holds only until somebody publishes. The tests of pages, which run
# by themselves, only say that they were asked.
TAGGED = f"""cd "$0"; git init -q; git config user.name Signer; git config user.email signer@a.example
python3 -Bc 'import sys; sys.path[:0] = [".ci/pages"]; import presets; presets.remove_unpublished()'
gpg --batch --quiet --passphrase '' --quick-gen-key 'Signer <signer@a.example>'
printf '#!/bin/sh\necho "tests of pages: $*"; [ ! -e out/wrong ]\n' >.ci/quick
git add --all; git commit -qm 'release: begin'; git tag -s -m 'A version' v{VERSION}"""


@pytest.fixture(scope='session')
def keys(tmp_path_factory):
    """Yields the environment with an empty folder for keys."""
    folder = tmp_path_factory.mktemp('keys')
    folder.chmod(0o700)
    yield {'GNUPGHOME': folder}
    start('gpgconf', '--kill', 'all', env={'GNUPGHOME': folder})


@pytest.fixture(scope='session')
def tagged(keys, tmp_path_factory):
    """Returns a repository of these sources whose commit has the signed tag."""
    folder = copy_tree(tmp_path_factory.mktemp('tagged') / 'tree')
    run('bash', '-euc', TAGGED, folder, env=keys)
    return folder


@pytest.fixture(scope='session')
def packages(tagged, keys, tmp_path_factory):
    folder = tmp_path_factory.mktemp('packages')
    run('bash', '-ec', 'umask 0; "$0"/package --release --to "$1"; cd "$1"; sha256sum --quiet -c SHA256SUMS'
        '; gpg --verify SHA256SUMS.asc SHA256SUMS', tagged, folder, env=keys)
    listed = re.findall('  (.*)', read(folder / 'SHA256SUMS'))
    assert sorted(listed) == sorted([*NAMES, *OTHERS]) and len(NAMES) == 23
    assert {file.name for file in folder.iterdir()} == {
        *listed, 'SHA256SUMS', *(f'{name}.asc' for name in ('SHA256SUMS', POM, *JARS))}
    return folder


@pytest.fixture(scope='session')
def unpacked(packages, tmp_path_factory):
    """Returns a folder with the contents of each package, by the package's name."""
    folder = tmp_path_factory.mktemp('unpacked')
    for name in NAMES:
        (folder / name).mkdir()
        run(*UNPACKS.get(Path(name).suffix, 'tar -xf {} -C {}').format(packages / name, folder / name).split())
    return folder


# ---- what is made

@pytest.fixture
def there():
    """Yields a folder that other users can reach, unlike pytest's."""
    with tempfile.TemporaryDirectory() as folder:
        yield Path(folder)


def test_packages_made_elsewhere_by_another_user_have_the_same_bytes(tagged, packages, keys, there):
    """There are another folder, user, umask, clock, zone and language, and one processor, and no key to sign with.
    Modules that lie beside the scripts are not run."""
    tree, home = shutil.copytree(tagged, there / 'tree', symlinks=True), there / 'home'
    planted = [f'{folder}/{name}.py' for folder in (
        'bindings/java', 'bindings/javascript/inline', 'bindings/python', '') for name in (
        'base64', 'hatchling', 'tempfile', 'zipfile')]
    for name in planted:
        (tree / name.lstrip('/')).write_text('raise SystemExit("a planted module ran")\n', encoding='utf-8')
    (tree / '.git/info/exclude').write_text('\n'.join(planted), encoding='utf-8')
    run('bash', '-ec', 'install -d -m 777 "$0"; install -d -m 700 -o 65534 -g 65534 "$0/keys"; gpg --export >"$0/key"'
        '; chmod -R a+rX "$0/.."', home, env=keys)
    late = ['faketime', '-f', '+40d'] if shutil.which('faketime') else []
    made = start('bash', '-c', 'umask 077 && cd / && "$@"', 'bash', 'taskset', '-c', '0', 'setpriv', '--reuid=65534',
                 '--regid=65534', '--clear-groups', 'env', f'HOME={home}', f'TMPDIR={home}', 'TZ=Asia/Tokyo',
                 'LC_ALL=C.UTF-8', f'GNUPGHOME={home}/keys', 'bash', '-c', 'gpg --quiet --import <~/key && "$@"',
                 'bash', *late, tree / 'package', '--release', '--to', home / 'made')
    assert 'package: SHA256SUMS is not signed' in made.stderr and not (home / 'made/SHA256SUMS.asc').exists()
    assert read(home / 'made/SHA256SUMS') == read(packages / 'SHA256SUMS')


# Each of these changes to the repository of a release is a reason why `./package --release` makes nothing. (No package
# contains the DLL, and what is packed of its folder could also be built.)
DLL = 'windows-x86_64/proved_argon2.dll'
UNRELEASED = {
    'another commit': ('git commit -q --allow-empty -m more', f'the tag v{VERSION} does not name this commit'),
    'no signature': (f'git tag -f -a -m more v{VERSION}', f'the tag v{VERSION} has no signature'),
    'a new file': ('git config status.showUntrackedFiles no; touch more', 'a file is not committed'),
    'another DLL': (f'echo >>release/{DLL}; git commit -qam more; git tag -f -s -m more v{VERSION}',
                    f'release/{DLL} is not the file that release/MANIFEST names'),
    'a wrong page': ('mkdir out; touch out/wrong', 'tests of pages: --pages'),
    'no publisher': (f'echo "# until" published >>PROJECT; git commit -qam more; git tag -f -s -m more v{VERSION}',
                     'PROJECT:'),
    'one kind': ('set -- go', '--release makes all kinds'),
    'another release': ('mkdir "$0"; touch "$0/old"', '/made is not empty')}


@pytest.fixture
def clone(tagged, tmp_path):
    run('git', 'clone', '-q', tagged, tmp_path / 'clone')
    return tmp_path / 'clone'


@pytest.mark.parametrize('name', UNRELEASED)
def test_only_what_a_signed_tag_names_is_released(clone, keys, tmp_path, name):
    change, why = UNRELEASED[name]
    who = 'git config user.name Signer; git config user.email signer@a.example'
    refuses(1, why, 'bash', '-euc', f'{who}; {change} >/dev/null; ./package --release --to "$0" "$@"',
            tmp_path / 'made', cwd=clone, env=keys)
    assert not [*tmp_path.glob('made/*proved*')]


# The grammar of semver.org.
IDENTIFIER = r'(?:0|[1-9]\d*|\d*[a-zA-Z-][\da-zA-Z-]*)'
SEMVER = re.compile(rf'{re.escape(VERSION)}-{IDENTIFIER}(?:\.{IDENTIFIER})*')


def versions_in(tree):
    """Returns the versions of what is no release. Each has its registry's form, and is smaller than the release's."""
    kinds = 'source', 'tarball', 'crate', 'npm', 'go', 'wheel', 'sdist', 'debian', 'java'
    found = {kind: run(tree / 'package', '--version', kind).strip() for kind in kinds}
    assert all(SEMVER.fullmatch(found[kind]) for kind in kinds[:5])
    assert Version(found['wheel']) < Version(VERSION) and str(Version(found['wheel'])) == found['wheel']
    run('dpkg', '--compare-versions', f'{found["debian"]}-1', 'lt', f'{VERSION}-1')
    assert found.pop('java') == f'{VERSION}-SNAPSHOT'
    return found


def test_a_version_that_is_no_release_names_its_commit(clone):
    commit = run('git', 'rev-parse', 'HEAD', cwd=clone)[:12]
    first = versions_in(clone)
    (clone / 'README.md').write_text('changed\n', encoding='utf-8')
    changed = versions_in(clone)
    assert all(commit in version for version in (*first.values(), *changed.values()))
    assert [kind for kind in first if changed[kind] == first[kind]] == ['source']  # (which has what is committed)
    shutil.rmtree(clone / '.git')
    assert all('unknown' in version for version in versions_in(clone).values())


# Each kind's packages name their version here, beside the file's name.
NAMED = {'wheel': 'unzip -p *x86_64.whl "*/METADATA"',
         'sdist': 'tar -xOf proved_*.tar.gz --wildcards "*/PKG-INFO"',
         'crate': 'cat *.crate | tar -xzi --to-stdout --wildcards "*/Cargo.toml"',
         'debian': 'dpkg-deb -f libproved-argon2-1_*.deb',
         'npm': 'tar -xOf *.tgz package/package.json', 'java': 'jar --describe-module --file *T.jar',
         'go': 'unzip -l *.zip', 'tarball': 'ls proved-*.tar.gz'}


def test_the_archive_of_the_sources_makes_all_other_packages(tagged, packages, tmp_path):
    """It has all files. The command, and what is installed, run from it."""
    run('tar', '-C', tmp_path, '-xzf', packages / SOURCE)
    tree, made = tmp_path / f'proved-argon2-{VERSION}', tmp_path / 'made'
    files = {str(path.relative_to(tree)) for path in tree.rglob('*') if not path.is_dir()}
    assert {*run('git', 'ls-files', cwd=tagged).splitlines()} == files
    first = '\n'.join(re.findall(r'^    (.*\./argon2 .*)$', read(TOP / 'README.md'), re.M))
    came = start('bash', '-euo', 'pipefail', '-c', first, cwd=tree)
    assert came.stdout.strip() == 'true' and f'./argon2 runs release/{MACHINE}/argon2_tool' in came.stderr
    run(tree / 'install', tmp_path / 'prefix')
    assert run(tmp_path / 'prefix/bin/proved-argon2', 'check', STORED, input='password') == 'true\n'
    refuses(1, 'only a repository of git', tree / 'package', 'source')
    for kind, command in NAMED.items():
        run(tree / 'package', kind, '--to', made, env={'MACHINES': MACHINE})
        version = run(tree / 'package', '--version', kind).strip()
        assert version in run('bash', '-ec', command, cwd=made), kind
    listed = {line.split()[1]: line.split()[0] for line in read(made / 'SHA256SUMS').splitlines()}
    assert listed.keys() | {'SHA256SUMS'} == {file.name for file in made.iterdir()} and len(listed) == 20
    tarball, = (own for name, own in listed.items() if name.endswith(f'-{MACHINE}.tar.gz'))
    assert tarball in read(packages / 'SHA256SUMS')
    assert not [*tree.glob('bindings/out/**/*.[ao]')]  # (nothing was proved, compiled or linked)


# Links to all programs of the system, except the compilers for other machines.
WITHOUT_CROSS = ('for file in /usr/bin/*; do [[ ${file##*/} == @(aarch64-linux|x86_64-w64)-* ]] || ln -s "$file" "$0"'
                 '; done')


def test_a_jar_contains_the_libraries_whose_compilers_are_there(tmp_path):
    """It needs none for a machine that was not asked for."""
    (tmp_path / 'bin').mkdir()
    run('bash', '-ec', WITHOUT_CROSS, tmp_path / 'bin')
    path = {'PATH': tmp_path / 'bin'}
    for machines_asked in None, MACHINE:
        came = start('./package', 'java', '--to', tmp_path, env={**path, 'MACHINES': machines_asked})
        jar, = tmp_path.glob('*T.jar')
        assert re.findall(r'native/(\S+)', run('unzip', '-l', jar)) == [f'linux-{MACHINE}.so']
        assert re.findall('no library for (.*) in the jar', came.stderr) == (
            [] if machines_asked else ['aarch64', 'windows-x86_64'])
        jar.unlink()
    refuses(1, 'gcc-aarch64-linux-gnu', './package', 'java', '--to', tmp_path, env={**path, 'MACHINES': 'aarch64'})


def test_a_newer_cargo_without_a_registry_is_named_with_the_remedy(tmp_path):
    """It looks for what the crates depend on, unlike Debian 12's."""
    fault = 'no matching package named `password-hash` found'
    (tmp_path / 'cargo').write_text(f"""#!/bin/sh
[ "$1" != --version ] || exec echo cargo 1.95.0
echo '  {fault}' >&2; exit 101
""", encoding='utf-8')
    (tmp_path / 'cargo').chmod(0o755)
    refuses(1, f"cargo 1.95.0 cannot pack the crate proved-argon2: {fault}. Use Debian 12's cargo",
            './package', 'crate', '--to', tmp_path / 'made', env={'CARGO': tmp_path / 'cargo', 'MACHINES': MACHINE})


def test_a_tarball_is_the_same_with_a_libdir_and_replaces_a_link(packages, tagged, tmp_path):
    (tmp_path / 'victim').write_text('mine')
    (tmp_path / 'SHA256SUMS').symlink_to('victim')
    run(tagged / 'package', 'tarball', '--to', tmp_path, env={'LIBDIR': '/opt/lib', 'CDPATH': '/opt'})
    sums = {*re.findall('(?m)^[0-9a-f]+', read(tmp_path / 'SHA256SUMS'))}
    assert read(tmp_path / 'victim') == 'mine' and len(sums) == 2 and sums <= {*read(packages / 'SHA256SUMS').split()}


@needs('lintian')
def test_lintian_finds_nothing(packages):
    run('lintian', '--allow-root', '--pedantic', '--fail-on', 'error,warning,info,pedantic',
        *(packages / name for name in ASKS))


# ---- what each registry wants

FIRST_GO = re.search(r'^```go\n(.*?)^```', read(TOP / 'docs/GO.md'), re.M | re.S)[1]
MODULE = re.search('^module (.*)$', read(TOP / 'bindings/go/go.mod'), re.M)[1]


def commands_for(registry):
    """The commands of docs/PUBLISHING.md for a registry."""
    section = read(TOP / 'docs/PUBLISHING.md').partition(f'\n### {registry}\n')[2].partition('\n### ')[0]
    return '\n'.join(re.findall('^ {4}(.*)$', section, re.M))


class PageForGo(http.server.BaseHTTPRequestHandler):
    """Answers as a proxy for every page of every host. Go finds the repository by this line."""

    def do_GET(self):
        self.send_response(200)
        self.end_headers()
        line, = re.findall('<meta .*>', read(TOP / 'docs/PUBLISHING.md'))
        self.wfile.write(line.encode())

    def log_message(self, *_):
        pass


@pytest.fixture
def page_for_go():
    with http.server.ThreadingHTTPServer(('127.0.0.1', 0), PageForGo) as server:
        threading.Thread(target=server.serve_forever).start()
        yield f'http://127.0.0.1:{server.server_port}'
        server.shutdown()


@needs('go')
@pytest.mark.parametrize('is_release', [True, False])
def test_go_fetches_the_same_module_from_a_repository_and_a_proxy(packages, clone, page_for_go, tmp_path, is_release):
    origin, served, version = tmp_path / 'origin', tmp_path / 'served' / MODULE / '@v', VERSION
    if not is_release:
        run(clone / 'package', 'go', '--to', tmp_path / 'packages')
        packages, version = tmp_path / 'packages', run(clone / 'package', '--version', 'go').strip()
    commands = commands_for('Go').replace(VERSION, version)
    run('bash', '-euc', f'git init -q --bare "$0"; git clone -q "$0" "$1"; cp -R "$2" "$1/release"'
        f'; cd "$1/release"\n{commands}', origin, tmp_path / 'fetched', packages)
    served.mkdir(parents=True)
    for end in 'info', 'mod', 'zip':
        shutil.copy(packages / f'proved-argon2-go-{version}.{end}', served / f'v{version}.{end}')
    env, sums = {'GOCACHE': tmp_path / 'cache', 'GOFLAGS': '-mod=mod', 'GONOSUMDB': '*', 'GOTOOLCHAIN': 'local',
                 'HTTP_PROXY': page_for_go, 'HTTPS_PROXY': page_for_go, 'NO_PROXY': None, 'no_proxy': None,
                 'GOINSECURE': MODULE, 'GIT_CONFIG_COUNT': 1, 'GIT_CONFIG_KEY_0': f'url.{origin}.insteadOf',
                 'GIT_CONFIG_VALUE_0': f'{PROJECT["Address"]}.git'}, set()
    for proxy in 'direct', f'file://{tmp_path}/served':
        folder = tmp_path / proxy[:4]
        folder.mkdir()
        (folder / 'main.go').write_text(FIRST_GO, encoding='utf-8')
        (folder / 'go.mod').write_text('module program\n\ngo 1.19\n', encoding='utf-8')
        env.update(GOPROXY=proxy, GOPATH=folder / 'path')
        run('go', 'get', f'{MODULE}@v{version}', cwd=folder, env=env)
        assert run('go', 'run', '.', cwd=folder, env=env) == 'true <nil>\nfalse <nil>\n'
        sums.add(read(folder / 'go.sum'))
    assert len(sums) == 1


# Maven takes plugins from Debian's repository.
SETTINGS = """<settings><localRepository>{0}/repository</localRepository><mirrors><mirror><id>debian</id>
<mirrorOf>*,!own</mirrorOf><url>file:///usr/share/maven-repo</url></mirror></mirrors></settings>"""
PROGRAM_OF_MAVEN = """<project xmlns="http://maven.apache.org/POM/4.0.0"><modelVersion>4.0.0</modelVersion>
<groupId>program</groupId><artifactId>program</artifactId><version>1</version>
<properties><maven.compiler.release>17</maven.compiler.release></properties>
<repositories><repository><id>own</id><url>file://{0}/site</url>
<releases><checksumPolicy>fail</checksumPolicy></releases></repository></repositories>
<dependencies><dependency>
<groupId>{1}</groupId><artifactId>{2}</artifactId><version>{3}</version></dependency></dependencies></project>"""


@needs('mvn')
@pytest.mark.parametrize('way', ['installed', 'uploaded'])
def test_maven_compiles_a_program(packages, keys, tmp_path, way):
    """It takes a jar that the page's command installed, or one from a registry, with signatures and checksums."""
    page, site = read(TOP / 'docs/JAVA.md').replace('-SNAPSHOT', ''), tmp_path / 'site'
    source = tmp_path / 'src/main/java/Program.java'
    maven = f'mvn --batch-mode --quiet --settings {tmp_path}/settings.xml '
    (tmp_path / 'settings.xml').write_text(SETTINGS.format(tmp_path), encoding='utf-8')
    if way == 'installed':
        command, = re.findall('^ {4}mvn (.*)$', page, re.M)
        run('sh', '-euc', maven + command, cwd=packages)
    else:
        shutil.copytree(packages, tmp_path / 'made')
        run('bash', '-euc', f'{commands_for("Maven Central")}\nunzip -q maven.zip -d "$0"', site, cwd=tmp_path / 'made')
        signed = [file.with_suffix('') for file in site.rglob('*.asc')]
        assert sorted(file.name for file in signed) == sorted([POM, *JARS]) and len([*site.rglob('*.sha1')]) == 4
        for file in signed:
            run('gpg', '--verify', f'{file}.asc', file, env=keys)
    named, = re.findall(r'"(\S+:\S+:\S+)"', page)
    (tmp_path / 'pom.xml').write_text(PROGRAM_OF_MAVEN.format(tmp_path, *named.split(':')), encoding='utf-8')
    source.parent.mkdir(parents=True)
    source.write_text('import proved.argon2.*;\nclass Program { public static void main(String[] none) {\n'
                      f'{first_lines("JAVA.md", 4)}System.out.println(matches); }} }}', encoding='utf-8')
    run('sh', '-euc', f'{maven} compile', cwd=tmp_path)
    jar, = (tmp_path / 'repository').rglob(JAR)
    assert run('java', '-cp', f'{jar}:{tmp_path}/target/classes', 'Program') == 'true\n'


@needs('npm')
def test_npm_would_publish_the_package_without_a_correction(unpacked, tmp_path):
    folder = shutil.copytree(unpacked / NPM / 'package', tmp_path / 'package')
    fields = json.loads(read(folder / 'package.json'))
    assert {'repository', 'bugs', 'homepage', 'license', 'author'} <= fields.keys() - {'private'}
    done = start('npm', 'publish', '--dry-run', '--offline', '--cache', tmp_path / 'cache', cwd=folder)
    warnings = re.findall('npm warn (.*)', done.stderr, re.I)
    assert done.returncode == 0 and not [line for line in warnings if 'be logged in' not in line], done.stderr
    assert f'proved-argon2@{VERSION}' in done.stdout


@needs('lintian')
def test_lintian_finds_only_compiled_files_in_the_source_package(packages):
    """It takes each for one whose source is missing."""
    said = start('lintian', '--allow-root', '--pedantic', '--display-info', packages / DSC).stdout
    found = re.findall(r'^(\w): \S+ source: (\S+)(?: \[(.*)\])?$', said, re.M)
    kinds = {'source-is-missing', *(f'source-contains-prebuilt-{kind}binary' for kind in ('', 'wasm-', 'windows-'))}
    assert {tag for _, tag, _ in found} == kinds and len(found) == len(said.splitlines())
    assert all(place.startswith('release/') for _, _, place in found)


def test_the_source_package_makes_the_same_packages(packages, tmp_path):
    run('dpkg-source', '--extract', packages / DSC, tmp_path / 'tree')
    run('dpkg-buildpackage', '--no-check-builddeps', '--no-sign', '--build=binary', cwd=tmp_path / 'tree',
        env={'PATH': '/usr/sbin:/usr/bin:/sbin:/bin'})
    names = [name for name in ASKS if not name.endswith('_arm64.deb')]
    assert names and not [name for name in names if (tmp_path / name).read_bytes() != (packages / name).read_bytes()]


# ---- what is in them

@pytest.mark.parametrize('name', NAMES)
def test_each_file_belongs_to_root_and_has_its_mode(packages, name):
    """No archive has an entry for a folder that is not ours: unpacking would change the system's folder."""
    found = ENTRY.findall(run(*LISTS.get(Path(name).suffix, ['tar', '-tvf']), packages / name))
    wrong = [(mode, owner, path) for kind, mode, owner, path in found if owner not in ('root/root', '0/0', '2.0')
             or mode != ('rwxrwxrwx' if kind == 'l' else
                         'rwxr-xr-x' if kind == 'd' or PROGRAMS.search(path) else 'rw-r--r--')
             or name[-4:] != '.deb' and (path.startswith(('/', '..')) or kind == 'd' and 'proved-argon2' not in path)]
    assert len(found) > 6 and not wrong


@pytest.mark.parametrize('machine', machines())
@pytest.mark.parametrize('file, count', [
    ('libproved_argon2.a', 4), (f'libproved_argon2.so.{VERSION}', 3), ('libargon2.a', 2), ('libargon2.so.1', 2),
    ('proved_argon2.node', 1)])
def test_released_files_are_packed_byte_for_byte(unpacked, machine, file, count):
    content = (TOP / 'release' / machine / file).read_bytes()
    assert count == sum(path.read_bytes() == content for path in unpacked.rglob('*')
                        if path.is_file() and not path.is_symlink() and path.stat().st_size == len(content))


@pytest.mark.parametrize('name', NAMES)
def test_each_has_both_licences_and_the_pages_of_its_users(unpacked, tagged, name):
    papers, = (unpacked / name).glob(PAPERS.get(name, 'usr/share/doc/*'))
    if name in ASKS:
        assert read(papers / 'copyright') == read(TOP / 'debian/copyright')
    else:
        assert read(papers / 'LICENSE') == read(TOP / 'LICENSE')
    for page in ('NOTICE', 'proved-argon2.spdx'):
        assert read(papers / page) == read(TOP / page)
    own = ASKS[name][1].split() if name in ASKS else ['docs/C.md', 'docs/LIBARGON2.md', 'docs/SHELL.md']
    for page in [] if name in (CRATE, TRAITS, NPM, GO, SDIST, *JARS, *WHEELS) else [*OF_ALL, *own]:
        kept, ours = (re.sub(r'\]\([^)]*\)', ']', read(at / page)) for at in (papers, tagged))
        assert kept == ours, page
    pages = [page for form in ('*.md', 'METADATA') for page in (unpacked / name).rglob(form)]
    assert pages and not [f'{page}: {link}' for page in pages for link in re.findall(
        r'\]\(([^]):# ]+)[)#]', read(page)) if not (page.parent / link).exists()]


@pytest.mark.parametrize('name', ASKS)
def test_a_package_for_debian_depends_only_on_what_it_needs(packages, unpacked, name):
    fields = run('dpkg-deb', '-f', packages / name, 'Architecture', 'Maintainer', 'Homepage', 'Depends',
                 'Recommends', 'Suggests')
    assert sorted(fields.splitlines()) == [
        f'Architecture: {name[:-4].rpartition("_")[2]}', f'Depends: {ASKS[name][0]}', f'Homepage: {PROJECT["Address"]}',
        f'Maintainer: {PROJECT["Publisher"]} <{PROJECT["Contact"]}>']
    needed = start('find', unpacked / name / 'usr', '-type', 'f', '-exec', 'readelf', '-VW', '{}', '+').stdout
    newest = max(([*map(int, found.split('.'))] for found in re.findall(r'GLIBC_([\d.]+)', needed)), default=0)
    assert newest == ([2, 34] if 'libc6 (' in ASKS[name][0] else 0)


def lines_of(text):
    """Returns a text's lines without comments and empty lines."""
    return [line.strip() for line in text.splitlines() if line.strip() and not line.startswith('#')]


@pytest.mark.parametrize('name', ASKS)
def test_a_package_for_debian_tells_dpkg_nothing_else_and_runs_nothing_else_as_root(packages, tmp_path, name):
    package = name.partition('_')[0]
    run('dpkg-deb', '--control', packages / name, tmp_path)
    told = {file.name: read(file) for file in tmp_path.iterdir() if file.name not in {'control', 'md5sums'}}
    expected = {file: what if isinstance(what, str) else f"set -e\n{read(what).replace('#PACKAGE#', package)}"
                for file, what in TOLD.get(package, {}).items()}
    if 'shlibs' in expected:
        assert SYMBOLS.fullmatch(told.pop('symbols'))
        assert lines_of(told.pop('triggers')) == ['activate-noawait ldconfig']
    assert {file: lines_of(text) for file, text in told.items()} == {
        file: lines_of(text.replace('#ARGS#', '')) for file, text in expected.items()}


# ---- what others have written

# Each compiler that links what we pack, and the files from which it may take code, by the names in the SPDX file.
COMPILERS = {'linux': ('gcc', 'aarch64-linux-gnu-gcc'), 'windows': ('x86_64-w64-mingw32-gcc-posix',)}
SOURCES_OF_CODE = {'glibc': 'Scrt1.o crti.o crtn.o libc_nonshared.a libc.a', 'libgcc': 'crtbeginS.o crtendS.o libgcc.a',
                   'mingw-w64': 'libkernel32.a libmsvcrt.a libadvapi32.a libmingwex.a libmingw32.a'}
OURS = re.compile('argon2[a-z_]*::|(Java_|__imp_|_head_)?proved_|PROVED_|argon2(d|i|id)?_')


def symbols(file, *options):
    """Returns the names that a file defines, without the numbers that compilers add, and without local labels."""
    listed = start('nm', '-P', '--defined-only', *options, file).stdout
    lines = re.findall(r'^([^\s.$][^\s@]*) [A-Za-z](?: |$)', listed, re.M)
    return {name if '::' in name else name.partition('.')[0] for name in lines}


def linked_by(compiler, folder):
    """Returns the names that a linker itself defines, and those of each source of code that it has."""
    (folder / 'empty.c').write_text('int entry(void) { return 0; }\n', encoding='utf-8')
    for form in '-shared', '-static-pie':
        run(compiler, form, '-nostdlib', '-Wl,--entry=entry', 'empty.c', '-o', f'{compiler}{form}', cwd=folder)
    names = {None: {'entry'}.union(*map(symbols, folder.glob(f'{compiler}-*')))}
    for owner, files in SOURCES_OF_CODE.items():
        paths = [Path(run(compiler, f'-print-file-name={file}').strip()) for file in files.split()]
        # Names that a library does not export may also be ours.
        names[owner] = {name for path in paths if path.is_absolute()
                        for name in symbols(path, *['-g'] * (path.name == 'libc.a'))} - names[None]
    return names


@needs(*sum(COMPILERS.values(), ()))
def test_the_spdx_file_lists_what_others_have_written(unpacked, tmp_path):
    """Each name that a packed file defines is in our sources, or in code of what the SPDX file lists for that file."""
    written = {*re.findall(r'\w+', '\n'.join(read(path) for folder in ('bindings', 'release/portable') for end in 'chs'
                                             for path in (TOP / folder).rglob(f'*.{end}')))}
    names = {system: [linked_by(compiler, tmp_path) for compiler in compilers]
             for system, compilers in COMPILERS.items()}
    found, unknown, seen = {}, set(), set()
    released = re.findall(r'(?m)^[^#].*  (.*)$', read(TOP / 'release/MANIFEST'))
    for path in (*unpacked.rglob('*'), *(TOP / 'release' / name for name in released)):
        content = path.read_bytes() if path.is_file() and not path.is_symlink() else b''
        if content[:2] != b'MZ' and content[:4] != b'\x7fELF' and content[:8] != b'!<arch>\n':
            continue
        seen.add(path.name)
        defined = {name for name in symbols(path) if not OURS.match(name)}
        for of in names['linux' if b'\x7fELF' in content else 'windows']:
            for owner in of.keys() - {None}:
                if defined & of[owner]:
                    found.setdefault(owner, set()).add(path.name)
            defined -= set().union(*of.values())
        unknown |= {(path.name, name) for name in defined - written}
        assert symbols(path), path
    listed = dict(re.findall(r'^PackageName: (.*)\n(?:.+\n)*?PackageComment: <text>(.*)</text>$',
                             read(TOP / 'proved-argon2.spdx'), re.M))
    assert len(seen) > 12 and not unknown
    assert found == {owner: {*' '.join(re.findall(r' in: (.*?)\.(?= |$)', text)).split()}
                     for owner, text in listed.items()}


def test_the_documentation_for_java_has_nothing_of_the_jdk_beside_its_pages(unpacked):
    """The JDK's script and style have another licence."""
    folder = unpacked / DOCUMENTATION
    others = [path for path in folder.rglob('*') if path.is_file() and path.suffix != '.html'
              and path.parent.name != 'META-INF']
    assert {path.name: read(path) for path in others} == {
        'element-list': 'module:proved.argon2\nproved.argon2\n',
        'documentation.css': read(TOP / 'bindings/java/documentation.css')}
    pages = [*folder.rglob('*.html')]
    assert len(pages) > 12 and not [page for page in pages if re.search('script>|<button|JavaScript', read(page))]


@pytest.mark.parametrize('name, packages', [
    ('libgcc', 'libgcc-12-dev gcc-12-aarch64-linux-gnu gcc-mingw-w64-x86-64-posix'),
    ('glibc', 'libc6-dev libc6-dev-arm64-cross'), ('mingw-w64', 'mingw-w64-x86-64-dev')])
def test_the_spdx_file_has_the_versions_with_which_release_was_linked(name, packages):
    linked = dict(re.findall(r'(\S+)=([\d.]+)', re.search('^# packages .*', read(TOP / 'release/MANIFEST'), re.M)[0]))
    stated, = re.findall(rf'^PackageName: {name}\n.*\nPackageVersion: (.*)$', read(TOP / 'proved-argon2.spdx'), re.M)
    assert {linked[package] for package in packages.split()} == {stated}


# ---- where neither the toolchain nor the repository can be seen

# Runs a script in an overlay of this system, which is discarded afterwards.
ALONE = '''
mount -t tmpfs none "$1" && mkdir "$1"/{new,work,all,hidden} && all=$1/all
mount -t overlay overlay -o "lowerdir=/,upperdir=$1/new,workdir=$1/work" "$all"
cp -r "$2" "$all/packages"
for hidden in /opt/rattle "$3"; do [[ ! -d $hidden ]] || mount --bind "$1/hidden" "$all$hidden"; done
mount --rbind /dev "$all/dev" && mount -t proc proc "$all/proc"
exec chroot "$all" env -i HOME=/root PATH=/usr/local/bin:/usr/sbin:/usr/bin:/sbin:/bin bash -Eeuo pipefail -c "$4"'''
# In the end nothing may be new or gone, except for the system's own notes, and what proofs that run beside it keep.
BEFORE = '''
trap 'echo "status $?: $BASH_COMMAND" >&2' ERR
cd /packages; scratch=$(mktemp -d)
[[ ! -e /opt/rattle/bin && ! $(command -v rt) && $(ldconfig -p) != *proved_argon2* ]]
installed_of() { dpkg-query -W -f '${Package}\\n' "$@" 2>/dev/null || true; }
all_files() {
    { find / -maxdepth 1; find /etc /home /opt /root /srv /usr /var -xdev -ignore_readdir_race; } \\
        | grep -vE '^/(root/\\.c|opt/rattle|var/(log|cache)/|var/lib/dpkg/.*-old$)' | sort
}
all_files >/tmp/before
leaves_nothing() { diff /tmp/before <(all_files); }
'''
NEEDS = {'crate': ['cargo'], 'go': ['go', 'unzip'], 'javascript': ['npm', 'node'], 'java': ['java'],
         'libargon2': ['php', '/usr/sbin/cryptsetup']}
FROM = {
    'tarball': '''tar -C / -xzf *-x86_64.tar.gz; ldconfig
        debian/tests/command; debian/tests/library; /usr/local/share/proved-argon2/uninstall; leaves_nothing''',
    'debian': '''dpkg -i lib*_amd64.deb proved-argon2_*_amd64.deb *_all.deb
        [[ -z $(dpkg --verify libproved-argon2-1 libproved-argon2-dev proved-argon2 python3-proved-argon2) ]]
        debian/tests/command; debian/tests/library; debian/tests/python
        dpkg -i --force-confnew lib*_amd64.deb proved-argon2_*_amd64.deb *_all.deb; debian/tests/command
        installed_of '*proved-argon2*' | xargs dpkg --purge; [[ -z $(installed_of '*proved-argon2*') ]]
        leaves_nothing''',
    'wheel': '''/usr/bin/python3 -m venv "$scratch/venv"; in=$scratch/venv/bin
        find "$scratch/venv" | sort >"$scratch/before"
        "$in/pip" install --no-index --no-compile --disable-pip-version-check *_x86_64.whl
        export PYTHON=$in/python PYTHONDONTWRITEBYTECODE=1
        debian/tests/python; PROVED_ARGON2_CPU=x86-64-v2 debian/tests/python; "$in/pip" uninstall -y proved-argon2
        diff "$scratch/before" <(find "$scratch/venv" | sort)''',
    'sdist': '''/usr/bin/python3 -m venv --system-site-packages "$scratch/venv"; in=$scratch/venv/bin
        find "$scratch/venv" | sort >"$scratch/before"
        "$in/pip" install --no-index --no-build-isolation --no-compile --disable-pip-version-check proved_*.tar.gz
        export PYTHON=$in/python PYTHONDONTWRITEBYTECODE=1
        debian/tests/python; "$in/pip" uninstall -y proved-argon2; diff "$scratch/before" <(find "$scratch/venv" | sort)
        ''',
    'crate': '''tar -xzf proved-argon2-[0-9]*.crate; cd rust; cargo run --offline --quiet
        cargo run --offline --quiet --features optional; PROVED_ARGON2_COMPILE=1 cargo run --offline --quiet
        PROVED_ARGON2_CPU=x86-64-v2 cargo run --offline --quiet
        rm ../proved-argon2-*/lib/x86_64/libproved_argon2.a; cargo clean -q
        if cargo run --offline --quiet 2>said; then exit 1; fi; grep 'the crate is not whole' said''',
    'go': '''unzip -q ./*.zip; cd go; export GOFLAGS=-mod=mod GOPROXY=off HOME=$scratch
        [[ $(go run .) == $'true <nil>\\nfalse <nil>' && $(PROVED_ARGON2_CPU=x86-64-v2 go run .) == true* ]]
        rm ../*/*/argon2@*/*_linux_amd64.a
        if go run . 2>said; then exit 1; fi; grep 'libproved_argon2_linux_amd64.a' said''',
    'javascript': '''cd "$scratch"; npm=(--offline --no-audit --no-fund --cache "$scratch/cache")
        npm install "${npm[@]}" /packages/*.tgz; [[ $(ls node_modules) == proved-argon2 ]]
        awk '/^```/ { fences++; next } fences == 1' /packages/docs/JAVASCRIPT.md >first.mjs
        [[ $(node first.mjs) == $'true\\nfalse' ]]
        node --input-type=module --eval "await (await import('proved-argon2')).hash('password', { native: true });"
        npm uninstall "${npm[@]}" proved-argon2; [[ ! -e node_modules/proved-argon2 ]]''',
    'java': '''cd "$scratch"
        { echo 'import proved.argon2.*; class First { public static void main(String[] none) {'
        awk '/^```/ { fences++; next } fences == 1' /packages/docs/JAVA.md
        echo 'System.out.println(matches); } }'; } >First.java
        [[ $(java -cp /packages/*[0-9].jar First.java) == true ]]; rm -r /tmp/hsperfdata_*; leaves_nothing''',
    'libargon2': '''debian/tests/libargon2 libargon2-1; dpkg -i proved-libargon2-*_amd64.deb
        [[ -z $(dpkg --verify proved-libargon2-1 proved-libargon2-dev) && -z $(dpkg --audit) ]]; apt-get check -qq
        if dpkg-query -W -f '${Status}\\n' libargon2-1 libargon2-dev 2>/dev/null | grep ' installed'; then exit 1; fi
        debian/tests/libargon2 proved-libargon2-1
        apt-get install -qq -y -o APT::Sandbox::User=root ./theirs/*.deb; [[ -z $(installed_of '*proved-libargon2*') ]]
        debian/tests/libargon2 libargon2-1; leaves_nothing''',
}


@pytest.fixture(scope='session')
def with_pages(packages, tmp_path_factory):
    """Returns the packages, with what their tests read and, for the way back, Debian's own libargon2."""
    folder = shutil.copytree(packages, tmp_path_factory.mktemp('pages') / 'packages')
    for name in ('docs', 'debian', 'bindings/c/tests'):
        shutil.copytree(TOP / name, folder / name)
    for name in ('go', 'rust/.cargo', 'theirs'):
        (folder / name).mkdir(parents=True)
    (folder / 'rust/.cargo/config.toml').write_text(CRATES_OF_DEBIAN)
    main = f'fn main() -> Result<(), Box<dyn std::error::Error>> {{{first_lines("RUST.md", 3)}Ok(()) }}'
    project(folder / 'rust', main, f'argon2 = {{ package = "proved-argon2", path = "../proved-argon2-{VERSION}" }}',
            more='[features]\noptional = ["argon2/serde", "argon2/password-hash"]\n')
    (folder / 'go/main.go').write_text(FIRST_GO)
    (folder / 'go/go.mod').write_text(
        f'module program\ngo 1.19\nrequire {MODULE} v{VERSION}\nreplace {MODULE} => ../{MODULE}@v{VERSION}\n')
    start('apt-get', '-qq', '-o', 'APT::Sandbox::User=root', 'download', 'libargon2-1', 'libargon2-dev',
          cwd=folder / 'theirs')
    return folder


@pytest.mark.parametrize('name', [pytest.param(name, marks=needs(*NEEDS.get(name, []))) for name in FROM])
def test_each_package_works_alone_and_leaves_nothing_when_removed(with_pages, tmp_path, name):
    if name == 'libargon2' and not any((with_pages / 'theirs').iterdir()):
        pytest.skip("Debian's libargon2-1 cannot be downloaded")
    run(*in_namespace(ALONE, tmp_path, with_pages, TOP, BEFORE + FROM[name]))


# ---- fresh systems

# `swaps 'PACKAGES' PACKAGE OTHER..` installs packages, or Debian's in their place. PHP then has to call the library of
# PACKAGE, and OTHERS have to be installed. The development files stay with either library; ours replace Debian's if
# both our packages are named.
SWAPS = '''export DEBIAN_FRONTEND=noninteractive; cd /packages
trap 'echo "status $?: $BASH_COMMAND" >&2' ERR
installs() { apt-get install -qq -y "$@" >/dev/null; }
swaps() {
    installs $1
    [[ $(php -r 'echo json_encode(password_verify("pw", password_hash("pw", PASSWORD_ARGON2ID)));') == true ]]
    [[ $(dpkg -S "/usr/lib/$(uname -m)-linux-gnu/libargon2.so.1") == "$2"* ]]
    for package in php-cli "${@:2}"; do
        [[ $(dpkg-query -W -f '${Status}' "$package") == *' installed' ]]
    done
    [[ -z $(dpkg --audit) ]] && apt-get check -qq
}
ours=./proved-libargon2-1_*_amd64.deb development=./proved-libargon2-dev_*_amd64.deb
'''
THERE_AND_BACK = '''apt-get update -qq; swaps php-cli libargon2-1; swaps "$ours" proved-libargon2-1
swaps libargon2-1 libargon2-1; swaps libargon2-dev libargon2-1 libargon2-dev
swaps "$ours" proved-libargon2-1 libargon2-dev; swaps libargon2-1 libargon2-1 libargon2-dev
if installs $development 2>/dev/null; then exit 1; fi
swaps "$ours $development" proved-libargon2-1 proved-libargon2-dev
swaps 'libargon2-1 libargon2-dev' libargon2-1 libargon2-dev; [[ -z $(dpkg-query -W 'proved-*' 2>/dev/null) ]]'''
UPGRADE = '''swaps "$ours" proved-libargon2-1 libargon2-dev; former=$(dpkg-query -W -f '${Version}' libargon2-dev)
sed -i s/bookworm/trixie/ /etc/apt/sources.list; apt-get update -qq; apt-get full-upgrade -qq -y >/dev/null
grep -qx VERSION_CODENAME=trixie /etc/os-release; swaps php-cli proved-libargon2-1 libargon2-dev
[[ $(dpkg-query -W -f '${Version}' libargon2-dev) != "$former" ]]; swaps libargon2-1 libargon2-1 libargon2-dev'''
INSTALLS = '/tree/install; proved-argon2 --version; /tree/install --remove'
# The steps in each system, by its release.
FRESH = {'bookworm': [INSTALLS, SWAPS, THERE_AND_BACK, UPGRADE, INSTALLS, THERE_AND_BACK],
         'noble': [INSTALLS, SWAPS, THERE_AND_BACK]}


@needs('mmdebstrap')
@pytest.mark.parametrize('release', FRESH)
def test_a_fresh_system(packages, tmp_path, release):
    system = make_system(tmp_path / 'system', release, 'apt')
    copy_tree(system / 'tree')
    shutil.copytree(packages, system / 'packages')
    run(*in_system(system, *SHELL_THERE, '\n'.join(FRESH[release])))
