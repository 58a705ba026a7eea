"""An installation by tools/install and `make install`: into a prefix, over another one, out of it, failing midway."""
import os
import re
import shutil

import places
import pytest
from places import RUN, RUN_ANSWER, run

# In which place a folder stands so that an installation fails near its end.
IN_THE_WAY = "share/zsh/site-functions/_hithwelor"


def files_of(root):
    """The files below a folder, with their bytes."""
    found = {}
    for at, _, names in os.walk(root):
        for name in names:
            with open(os.path.join(at, name), "rb") as file:
                found[os.path.relpath(os.path.join(at, name), root)] = file.read()
    return found


@pytest.fixture
def install(own_clone, machine, any_node):
    """Calls tools/install of a clone that has no proved program."""
    path = machine(lacks=["rt"], node=any_node)
    return lambda *words: run([os.path.join(own_clone, "tools", "install"), *words], path=path, cwd="/")


def answer(prefix, path, words=RUN):
    with open(os.path.join(prefix, "share/doc/hithwelor/examples/increment.csv"), encoding="utf-8") as table:
        return run([os.path.join(prefix, "bin", "hithwelor"), *words], path=path, cwd="/", stdin=table)


def test_it_answers_without_the_toolchain_and_python(install, machine, any_node, tmp_path):
    prefix = str(tmp_path / "prefix")
    assert install("--prefix", prefix).returncode == 0
    ran = answer(prefix, machine(node=any_node))
    assert (ran.returncode, ran.stdout) == (0, RUN_ANSWER)


def test_without_node_the_installed_module_says_so(install, machine, tmp_path):
    prefix = str(tmp_path / "prefix")
    install("--prefix", prefix)
    ran = answer(prefix, machine())
    assert (ran.returncode, ran.stdout, ran.stderr.count("\n")) == (1, "", 1)
    assert "Node.js 18 or later" in ran.stderr


def test_an_upgrade_takes_the_old_program_away(install, own_clone, machine, any_node, tmp_path):
    prefix = str(tmp_path / "prefix")
    program = places.stand_in(own_clone)
    assert "by the proved program" in install("--prefix", prefix).stdout
    assert os.path.isfile(os.path.join(prefix, "lib/hithwelor/hithwelor"))
    os.remove(program)
    assert "by the module" in install("--prefix", prefix).stdout
    ran = answer(prefix, machine(node=any_node))
    assert ran.stdout == RUN_ANSWER and "stand-in" not in ran.stderr
    assert not os.path.exists(os.path.join(prefix, "lib/hithwelor/hithwelor"))
    assert install("--prefix", prefix, "--uninstall").returncode == 0
    assert not os.path.exists(prefix)


def test_failing_midway_keeps_the_installation_before(install, own_clone, tmp_path):
    prefix = str(tmp_path / "prefix")
    install("--prefix", prefix)
    with open(os.path.join(own_clone, "README.md"), "a", encoding="utf-8") as file:
        file.write("changed\n")
    os.remove(os.path.join(prefix, IN_THE_WAY))
    os.makedirs(os.path.join(prefix, IN_THE_WAY))
    before = files_of(prefix)
    ran = install("--prefix", prefix)
    assert (ran.returncode, ran.stdout, ran.stderr.count("\n")) == (1, "", 1)
    assert IN_THE_WAY in ran.stderr and "what was installed before stands as it was" in ran.stderr
    assert files_of(prefix) == before


def test_failing_midway_leaves_an_empty_prefix_empty(install, tmp_path):
    prefix = str(tmp_path / "prefix")
    os.makedirs(os.path.join(prefix, IN_THE_WAY))
    ran = install("--prefix", prefix)
    assert ran.returncode == 1 and "nothing was installed" in ran.stderr and ran.stderr.count("\n") == 1
    assert files_of(prefix) == {}
    assert os.listdir(prefix) == ["share"]


def test_a_folder_that_was_there_before_stays(install, tmp_path):
    prefix = str(tmp_path / "prefix")
    for name in ("bin", "share/man/man1"):
        os.makedirs(os.path.join(prefix, name))
    install("--prefix", prefix)
    assert install("--prefix", prefix, "--uninstall").returncode == 0
    left = sorted(os.path.relpath(at, prefix) for at, _, _ in os.walk(prefix))
    assert left == [".", "bin", "share", "share/man", "share/man/man1"]


def test_untracked_files_arent_installed(install, own_clone, tmp_path):
    for name in ("docs/learn/tutorial.md~", "docs/notes.md", "examples/mine.csv", "python/hithwelor/scratch.py"):
        places.write(os.path.join(own_clone, name), "mine\n")
    prefix = str(tmp_path / "prefix")
    assert install("--prefix", prefix).returncode == 0
    assert not [name for name, data in files_of(prefix).items() if data == b"mine\n"]
    assert "share/doc/hithwelor/docs/learn/tutorial.md" in files_of(prefix)


def test_without_git_what_an_editor_leaves_isnt_installed(install, own_clone, tmp_path):
    shutil.rmtree(os.path.join(own_clone, ".git"))
    places.write(os.path.join(own_clone, "docs/learn/tutorial.md~"), "mine\n")
    prefix = str(tmp_path / "prefix")
    assert install("--prefix", prefix).returncode == 0
    assert "share/doc/hithwelor/docs/learn/tutorial.md" in files_of(prefix)
    assert not [name for name in files_of(prefix) if name.endswith("~")]


def test_the_packages_pages_are_among_the_documents(install, tmp_path):
    """What README and the pages of docs/ lead to of the packages is there; the package of JavaScript is npm's to install."""
    prefix = str(tmp_path / "prefix")
    assert install("--prefix", prefix).returncode == 0
    made = files_of(prefix)
    for name in ("python/README.md", "js/README.md"):
        assert f"share/doc/hithwelor/{name}" in made
    assert b"npm install" in made["share/doc/hithwelor/js/README.md"]
    assert not [name for name in made if name.endswith((".mjs", ".wasm"))]


def test_npm_installs_the_folder_of_the_package(own_clone, tmp_path, any_node, needs):
    needs("npm")
    project = tmp_path / "project"
    places.write(str(project / "package.json"), '{"private": true}\n')
    home = {
        **os.environ,
        "HOME": str(tmp_path),
        "npm_config_cache": str(tmp_path / "cache"),
        "npm_config_offline": "true",
        "npm_config_update_notifier": "false",
        "npm_config_audit": "false",
        "npm_config_fund": "false",
    }
    ran = run(["npm", "install", os.path.join(own_clone, "js")], cwd=str(project), env=home)
    assert ran.returncode == 0, ran.stderr
    ask = 'import("hithwelor").then(it => it.load()).then(it => console.log(it.answer(["nonsense"]).status))'
    assert run([any_node, "-e", ask], cwd=str(project), env=home).stdout == "2\n"


@pytest.mark.parametrize("prefix", ["", ".", " "])
def test_a_prefix_that_names_nothing_or_the_clone_is_refused(own_clone, machine, any_node, prefix):
    path = machine(lacks=["rt"], node=any_node)
    before = files_of(own_clone)
    ran = run(["make", "install", f"PREFIX={prefix}"], path=path, cwd=own_clone)
    assert ran.returncode != 0 and "the prefix is" in ran.stderr and "nothing was changed" in ran.stderr
    assert files_of(own_clone) == before


def test_make_alone_shows_help_and_installs_nothing(own_clone, machine, any_node, tmp_path):
    ran = run(["make", f"PREFIX={tmp_path}/prefix"], path=machine(lacks=["rt"], node=any_node), cwd=own_clone)
    assert ran.returncode == 0 and "make install PREFIX=" in ran.stdout
    assert not os.path.exists(tmp_path / "prefix")


def test_the_man_page_is_that_of_the_installed_command(install, tmp_path, needs):
    needs("man")
    prefix = str(tmp_path / "prefix")
    install("--prefix", prefix)
    page = os.path.join(prefix, "share/man/man1/hithwelor.1")
    wide = {**os.environ, "MANWIDTH": "1000"}
    shown = re.sub(r"\s+", " ", run(["sh", "-c", 'man -l "$1" | col -b', "-", page], env=wide).stdout)
    assert "NAME hithwelor - run circuits of rotary elements" in shown
    assert "hithwelor reads standard input to its end" in shown and "hithwelor sweep" in shown
    for absent in ("workbench", "./try", "rt try", "tools/completion.bash"):
        assert absent not in shown
    for path in re.findall(r"\S+/(?:docs|examples)/[\w.]+\.md", shown):
        assert os.path.isfile(path)


def test_the_repositorys_man_page_tells_of_the_scripts(needs):
    needs("man")
    shown = run(
        ["sh", "-c", 'man -l "$1" | col -b', "-", os.path.join(places.TOP, "docs", "use", "workbench.1")]
    ).stdout
    assert "./try" in shown and "workbench - run circuits" in shown and "hithwelor sweep" not in shown


def test_completion_in_zsh(install, tmp_path, needs):
    needs("zsh")
    prefix = str(tmp_path / "prefix")
    install("--prefix", prefix)
    completions = f"{prefix}/share/zsh/site-functions/_hithwelor"
    script = (
        '_describe() { eval "print -l -- \\"\\${${2}[@]}\\"" }; _files() { print files }; CURRENT=2; '
        f"source {completions}; CURRENT=3; source {completions}"
    )
    ran = run(["zsh", "-f", "-c", script])
    lines = ran.stdout.splitlines()
    assert ran.returncode == 0 and "bennett:print Bennett's reversible machine, a table of quadruples" in lines
    assert any(line.startswith("help:") for line in lines) and lines[-1] == "files"


def test_completion_in_fish(install, tmp_path, needs):
    needs("fish")
    prefix = str(tmp_path / "prefix")
    install("--prefix", prefix)
    places.write(str(tmp_path / "room" / "migration.txt"), "")
    completions = f"{prefix}/share/fish/vendor_completions.d/hithwelor.fish"

    def completed(line):
        script = f"source {completions}; complete -C '{line}'"
        ran = run(
            ["fish", "--no-config", "-c", script],
            cwd=str(tmp_path / "room"),
            env=places.environment(f"{prefix}/bin:/usr/bin:/bin", HOME=str(tmp_path)),
        )
        return dict(it.partition("\t")[::2] for it in ran.stdout.splitlines())

    assert set(completed("hithwelor mi")) == {"migrate", "mirror"}
    assert completed("hithwelor b")["bennett"] == "print Bennett's reversible machine, a table of quadruples"
    assert "--element-steps" in completed("hithwelor run m.csv --el")
    assert "help" in completed("hithwelor h")
    assert "migration.txt" in completed("hithwelor check < mi")
