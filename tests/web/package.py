"""The package of npm: what it holds, how it is installed, and its types, by the compiler of TypeScript in each way to look for modules."""

import functools
import json
import re
import shutil

import contents
import packages
import version
from tally import ANY, TOP, call, put

PLANNED = 'import { plan, Pocsag, Fault } from "pocsag"; console.log(plan("address,kind,message\\n8,tone0,\\n").batches, typeof Pocsag, typeof Fault);'
USE = (TOP / "tests/web/use.mts").read_text()
# A use each, and what the compiler says of it.
REFUSED = {
    'plan(pages, { end: "shut" });': "TS2322", "plan(5);": "TS2345", 'hear("8", pages);': "TS2345", "const n: number = decode(pages);": "TS2322", 'writePage(8, "tone4");': "TS2345",
    "planAtMost(pages);": "TS2554", "plan(pages).batch;": "TS2551", 'show(pages, { rows: 1 });': "TS2345", "none();": "TS2304", "new Pocsag(5);": "TS2345",
}  # fmt: skip
WAYS = (("node", "es2022"), ("node16", "node16"), ("nodenext", "nodenext"))

run = functools.partial(call, text=True)


def installed(tally, folder, room):
    """A folder of a user with the package installed, by npm where that is there."""
    name, files = contents.npm_package({it.name: packages.File(it.read_bytes()) for it in folder.iterdir() if it.name != contents.PAGE})
    package, user = room / name, room / "user"
    package.write_bytes(packages.write(name, files, version.SECONDS))
    user.mkdir()
    (user / "package.json").write_text('{ "name": "user", "type": "module" }')
    about = json.loads(files["package.json"].data)
    tally.check("the package has the version", about["version"] == version.VERSION, about)
    if not shutil.which("npm"):
        print("skipped: npm is missing, so its package is unpacked by tar; on Debian: apt-get install npm")
        (user / "node_modules").mkdir()
        shutil.unpack_archive(package, user / "node_modules", "gztar")
        (user / "node_modules/package").rename(user / "node_modules/pocsag")
        return user
    done = run("npm", "install", "--offline", "--no-audit", "--no-fund", package, cwd=user)
    tally.check("npm installs the package", done.returncode == 0, done)
    done = run("npm", "pack", "--offline", "--json", "--pack-destination", room, cwd=user / "node_modules/pocsag")
    listed = {it["path"] for it in json.loads(done.stdout or "[{}]")[0].get("files", [])}
    tally.check("npm would pack the same files", listed == files.keys(), listed ^ files.keys())
    command = user / "node_modules/.bin/pocsag"
    done = run(command, "check", TOP / "examples/loops-apart.csv", TOP / "examples/loops-apart.cert")
    tally.check("and has the command", (done.returncode, done.stdout) == (0, "at least 3 batches\n"), done)
    return user


def try_types(tally, user):
    """The types of the package, by each way to look for modules; and wrong uses are refused."""
    if not shutil.which("tsc"):
        print("skipped: tsc is missing; on Debian: apt-get install node-typescript")
        return
    files = {"use.mts": USE, "use.ts": USE, **{f"wrong{number}.mts": USE + text for number, text in enumerate(REFUSED)}}
    put(user, files)
    for resolution, module in WAYS:
        words = ["tsc", "--strict", "--skipDefaultLibCheck", "--noEmit", "--target", "es2022", "--lib", "es2022", "--module", module, "--moduleResolution", resolution]
        done = run(*words, *files, cwd=user)
        told = re.findall(r"^(?:wrong(\d+)\.mts\(\d+,\d+\): )?.*?error (TS\d+)", done.stdout, re.M)
        tally.check(f"types by {resolution}, and the wrong uses alone are refused", told == [(str(number), code) for number, code in enumerate(REFUSED.values())], done.stdout)


def try_package(tally, folder, room):
    """All of these, of the files that web/make.py made."""
    user = installed(tally, folder, room)
    (user / "planned.mjs").write_text(PLANNED)
    tally.check_done("a program imports it by its name", run("node", "planned.mjs", cwd=user), 0, "1 function function\n", ANY)
    try_types(tally, user)
