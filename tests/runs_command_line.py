"""The runs of the words of a command line: what they set, which page they ask for, and the line that explains how a run ended."""
from run_texts import *

begin(__name__)

# ---- The words of a command line

WORDS_END = "; vnfm --help says more\n"
ONCE = ["once", "--journal", "j"]


def explained(words, status, line, lost="", undelivered=False, spare=""):
    return ["line", words, status, lost, spare, undelivered, line]


run(
    "a run is explained in one line",
    explained(ONCE, 0, ""),
    explained(ONCE, 0, "vnfm: the answer couldn't be delivered; what it says is recorded\n", undelivered=True),
    explained(ONCE, 3, "vnfm: \"j\": another manager holds its lock\n", "locked"),
    explained(ONCE, 3, "vnfm: \"j\": a call on it failed; if its disk did, the kernel's log says how\n", "other"),
    explained(ONCE, 3, "vnfm: /dev/null couldn't be opened, which holds the places of closed standard streams\n"),
    explained(ONCE, 9, "vnfm: \"j\": it has no room for what was to be recorded\n"),
    explained(ONCE, 6, "vnfm: there was no memory\n"),
    explained(["once", "--journal", "a\nb", "c"], 2, "vnfm: \"c\" isn't understood" + WORDS_END),
)
NO_JOURNAL = (
    "it is not a journal that init has finished; one of format 1, whose header differs first at byte 8, is carried over by vnfm migrate "
    "--journal PATH --to NEWPATH"
)
GIVE_ANOTHER = "; give another path, or move it away\n"
MIGRATE = ["migrate", "--journal", "j", "--to", "k"]
run(
    "a file that is no journal, one that is taken and one without room are told of by what was to be done with them",
    *[explained(words, 5, 'vnfm: "j": %s\n' % NO_JOURNAL) for words in (ONCE, ["onboard", "--journal", "j"], ["check", "--journal", "j"])],
    explained(MIGRATE, 5, 'vnfm: "j": no journal of format 1 stands there\n'),
    explained(["init", "--manager", "7", "--journal", "j"], 11, 'vnfm: "j": it is a journal already, or no file of this program\'s' + GIVE_ANOTHER),
    explained(MIGRATE, 11, 'vnfm: "k": it is not an unfinished journal of the same manager' + GIVE_ANOTHER),
    explained(MIGRATE, 9, 'vnfm: "k": a journal of the present format would be longer than one may be\n'),
    explained(MIGRATE, 8, "vnfm: \"j\": it has a record that is broken or isn't allowed there\n"),
    explained(MIGRATE, 6, "vnfm: there was no memory\n"),
    explained(MIGRATE, 0, ""),
)
run(
    "of two files that are lost the journal is named, and else the one that it goes to",
    explained(MIGRATE, 3, 'vnfm: "j": another manager holds its lock\n', "locked"),
    explained(MIGRATE, 3, 'vnfm: "k": another manager holds its lock\n', spare="locked"),
    explained(MIGRATE, 3, 'vnfm: "j": there is no such folder\n', "no folder", spare="locked"),
    explained(["migrate", "--to", "k", "--journal", "j"], 3, 'vnfm: "k": its file system is read-only\n', spare="read only"),
    explained(["migrate", "--to", "", "--journal", "j"], 3, 'vnfm: "": the path is empty\n', spare="no folder"),
    explained(MIGRATE, 3, "vnfm: /dev/null couldn't be opened, which holds the places of closed standard streams\n"),
)
run(
    "a reason names the journal wherever it stands",
    *[
        explained(words, 3, "vnfm: \"j\": it is not a regular file\n", "not a file")
        for words in ([*ONCE, "--rounds", "2"], ["once", "--rounds", "2", "--journal", "j"])
    ],
)
run(
    "each cause for which a journal is lost has words of its own",
    *[
        explained(ONCE, 3, 'vnfm: "j": %s\n' % text, lost)
        for lost, text in [
            *[("no folder", "there is no such folder"), ("not permitted", "there is no permission to read and write it")],
            *[("read only", "its file system is read-only"), ("no space", "its file system has no space left, or no inode")],
            *[("dangling link", "it is a symbolic link to nothing, or was made just now by another")],
            *[("link loop", "its symbolic links form a loop, or are too many"), ("name too long", "a name in the path, or all of it, is too long")],
            *[("quota", "the quota on its file system is used up"), ("too large", "it would be larger than a file may be")],
            ("memory", "there was no memory"),
        ]
    ],
    explained(["once", "--journal", ""], 3, 'vnfm: "": the path is empty\n', "no folder"),
    explained(["once", "--journal", ""], 3, 'vnfm: "": its file system is read-only\n', "read only"),
)
run(
    "a descriptor that is refused is told of",
    explained(["onboard", "--journal", "j"], 10, "vnfm: the descriptor is not taken\n"),
)
run(
    "texts are asked for by their words",
    ["page", ["once", "--help"], "vnfm once --journal PATH [OPTION..]    answer the requests on standard input"],
    ["page", ["check", "--help"], "vnfm check --journal PATH    count what the journal at PATH has, and change nothing\n"],
    ["page", ["migrate", "--help"], "vnfm migrate --journal PATH --to PATH    make a journal of the present format of one of format 1\n"],
    ["page", ["serve", "--help"], "vnfm serve --journal PATH --listen ADDR --em-listen ADDR [OPTION..]\n"],
    ["page", ["trial", "--help"], "vnfm trial --start N --count N    play requests drawn from a number over objects in memory\n"],
    ["page", ["--version"], "vnfm 0.1.0\n"],
    ["page", ["--version", "more"], ""],
)


def set_by(words, command, journal, manager=0, role="Orchestrator", rounds=0, orchestrator="", vim="", to="", at=("", ""), start=0, count=0):
    """What these words set."""
    texts = '"%s" %d %s %d "%s" "%s" "%s" "%s" "%s"' % (journal, manager, role, rounds, *at, orchestrator, vim, to)
    return ["set", words, "%s %s %d %d" % (command, texts, start, count)]


run(
    "init and onboard set what they name",
    set_by(["init", "--journal", "j", "--manager", "7"], "Init", "j", 7),
    set_by(["init", "--manager", "7", "--journal", "j"], "Init", "j", 7),
    set_by(["init", "--journal", "", "--manager", "0"], "Init", "", 0),
    set_by(["init", "--journal", "a=b c", "--manager", "4294967295"], "Init", "a=b c", 4_294_967_295),
    set_by(["init", "--journal", "j", "--manager", "00000000000000000007"], "Init", "j", 7),
    set_by(["onboard", "--journal", "once"], "Onboard", "once"),
    set_by(["onboard", "--journal", "=-"], "Onboard", "=-"),
)


def once_sets(words, role="Orchestrator", rounds=1, orchestrator="", vim=""):
    return set_by(["once", *words], "Once", "j", 0, role, rounds, orchestrator, vim)


AT_J = ["--journal", "j"]
run(
    "once has options with defaults",
    once_sets(AT_J),
    once_sets([*AT_J, "--role", "orchestrator"]),
    once_sets(["--role", "em", *AT_J], "Element"),
    once_sets([*AT_J, "--rounds", "0"], rounds=0),
    once_sets([*AT_J, "--rounds", "03"], rounds=3),
    once_sets(["--rounds", "4294967295", *AT_J], rounds=4_294_967_295),
    once_sets([*AT_J, "--orchestrator", "none"], orchestrator="none"),
    once_sets(["--vim", "", *AT_J]),
    once_sets(
        ["--vim", "h:1", "--orchestrator", "http://h/x=y", "--rounds", "2", *AT_J, "--role", "em"], "Element", 2, "http://h/x=y", "h:1"
    ),
)


def no_command(what, *words):
    """Words that are no command, and what is wrong with them."""
    return [explained(words, 2, "vnfm: " + what + WORDS_END), ["set", words, "usage"]]


def not_understood(word, *words):
    return no_command('"%s" isn\'t understood' % word, *words)


def stands_twice(word, *words):
    return no_command('"%s" stands twice' % word, *words)


NUMBER, ROLE, TEXT = "a number from 0 to 4294967295, in at most 20 digits", "orchestrator or em", "a word that doesn't begin with -"
ADDRESS, START, COUNT = "an address and port", "a number from 0 to %d, in at most 20 digits" % (2**64 - 1), "a number from 0 to 2000, in at most 20 digits"


def no_value(word, option, wanted, *words):
    return no_command('"%s" is no value of %s, which takes %s' % (word, option, wanted), *words)


run(
    "check sets what it names, and takes nothing else",
    set_by(["check", "--journal", "check"], "Check", "check"),
    *no_command("--journal PATH is missing", "check"),
    *no_command('"--journal" has no value', "check", "--journal"),
    *not_understood("--rounds", "check", *AT_J, "--rounds", "1"),
    *not_understood("--role", "check", *AT_J, "--role", "em"),
    *not_understood("--manager", "check", "--manager", "7", *AT_J),
    *stands_twice("--journal", "check", *AT_J, *AT_J),
    *no_value("-j", "--journal", TEXT, "check", "--journal", "-j"),
    *not_understood("Check", "Check", *AT_J),
)
run(
    "migrate sets both paths, and takes nothing else",
    set_by(MIGRATE, "Migrate", "j", to="k"),
    set_by(["migrate", "--to", "k", "--journal", "j"], "Migrate", "j", to="k"),
    set_by(["migrate", "--journal", "j", "--to", "j"], "Migrate", "j", to="j"),
    set_by(["migrate", "--journal", "", "--to", ""], "Migrate", ""),
    *no_command("--journal PATH is missing", "migrate"),
    *no_command("--journal PATH is missing", "migrate", "--to", "k"),
    *no_command("--to PATH is missing", "migrate", *AT_J),
    *no_command('"--to" has no value', "migrate", *AT_J, "--to"),
    *not_understood("k", *MIGRATE[:3], "k"),
    *not_understood("--manager", *MIGRATE, "--manager", "7"),
    *not_understood("--role", *MIGRATE, "--role", "em"),
    *not_understood("--to=k", "migrate", *AT_J, "--to=k"),
    *stands_twice("--to", *MIGRATE, "--to", "k"),
    *no_value("-k", "--to", TEXT, "migrate", *AT_J, "--to", "-k"),
    *not_understood("Migrate", "Migrate", *AT_J, "--to", "k"),
    # It is an option of no other command.
    *[it for words in (ONCE, ["check", *AT_J], ["onboard", *AT_J], ["init", *AT_J]) for it in not_understood("--to", *words, "--to", "k")],
)
SERVE = ["serve", *AT_J, "--listen", "h:1", "--em-listen", "h:2"]


def serve_sets(words, rounds=4_294_967_295, orchestrator="", vim="", at=("h:1", "h:2")):
    return set_by(words, "Serve", "j", rounds=rounds, orchestrator=orchestrator, vim=vim, at=at)


run(
    "serve sets a path and two addresses, and makes rounds without end where nothing else is said",
    serve_sets(SERVE),
    serve_sets(["serve", "--em-listen", "h:2", "--listen", "h:1", *AT_J]),
    serve_sets([*SERVE, "--rounds", "0"], 0),
    serve_sets([*SERVE, "--rounds", "3", "--vim", "v:1", "--orchestrator", "http://o:1/x"], 3, "http://o:1/x", "v:1"),
    serve_sets(["serve", *AT_J, "--listen", "localhost", "--em-listen", "localhost"], at=("localhost", "localhost")),
    *no_command("--journal PATH is missing", "serve"),
    *no_command("--journal PATH is missing", "serve", *SERVE[3:]),
    *no_command("--listen ADDR is missing", "serve", *AT_J, "--em-listen", "h:2"),
    *no_command("--em-listen ADDR is missing", *SERVE[:5]),
    *no_command('"--listen" has no value', "serve", *AT_J, "--listen"),
    *no_value("", "--listen", ADDRESS, "serve", *AT_J, "--listen", "", "--em-listen", "h:2"),
    *no_value("", "--em-listen", ADDRESS, *SERVE[:5], "--em-listen", ""),
    *no_value("-h:1", "--listen", ADDRESS, "serve", *AT_J, "--listen", "-h:1", "--em-listen", "h:2"),
    *no_value("4294967296", "--rounds", NUMBER, *SERVE, "--rounds", "4294967296"),
    *not_understood("--role", *SERVE, "--role", "em"),
    *not_understood("--manager", *SERVE, "--manager", "7"),
    *stands_twice("--listen", *SERVE, "--listen", "h:3"),
    *not_understood("Serve", "Serve", *SERVE[1:]),
    # They are options of no other command.
    *[it for words in (ONCE, MIGRATE, ["check", *AT_J]) for it in not_understood("--em-listen", *words, "--em-listen", "h:1")],
)
MOST_START = "18446744073709551615"
run(
    "trial sets a start and a count, and names no file",
    set_by(["trial", "--start", "1", "--count", "100"], "Trial", "", start=1, count=100),
    set_by(["trial", "--count", "0", "--start", "0"], "Trial", ""),
    set_by(["trial", "--count", "2000", "--start", MOST_START], "Trial", "", start=int(MOST_START), count=2000),
    set_by(["trial", "--count", "02000", "--start", "007"], "Trial", "", start=7, count=2000),
    *no_command("--start N is missing", "trial"),
    *no_command("--start N is missing", "trial", "--count", "1"),
    *no_command("--count N is missing", "trial", "--start", "1"),
    *no_value("2001", "--count", COUNT, "trial", "--start", "1", "--count", "2001"),
    *no_value("18446744073709551616", "--start", START, "trial", "--start", "18446744073709551616", "--count", "1"),
    *no_value("", "--start", START, "trial", "--start", "", "--count", "1"),
    *no_value("1.0", "--count", COUNT, "trial", "--start", "1", "--count", "1.0"),
    *no_value("-1", "--start", START, "trial", "--start", "-1", "--count", "1"),
    *not_understood("--journal", "trial", *AT_J, "--start", "1", "--count", "1"),
    *stands_twice("--count", "trial", "--start", "1", "--count", "1", "--count", "1"),
    *[it for words in (ONCE, MIGRATE, SERVE) for it in not_understood("--start", *words, "--start", "1")],
)
run(
    "a run of serve and one of trial are explained in words of their own",
    explained(SERVE, 0, "", undelivered=True),
    explained(SERVE, 4, "vnfm: no connection can be had at the addresses of --listen and --em-listen\n"),
    explained(SERVE, 3, 'vnfm: "j": another manager holds its lock\n', "locked"),
    explained(SERVE, 9, 'vnfm: "j": it has no room for what was to be recorded\n'),
    explained(ONCE, 4, "vnfm: standard input couldn't be read\n"),
    explained(["trial", "--start", "1", "--count", "1"], 0, ""),
    explained(["trial", "--start", "1", "--count", "1"], 3, "vnfm: the journal of this trial would be longer than its room of 67108864 bytes\n"),
    explained(["trial", "--start", "1", "--count", "1"], 6, "vnfm: there was no memory\n"),
)
run(
    "words that are no command are told apart",
    *no_command("a command is missing"),
    *not_understood("--journal", *AT_J, "once"),
    *not_understood("Once", "Once", *AT_J),
    *not_understood("--", "--", *ONCE),
    *no_command("--journal PATH is missing", "once"),
    *no_command("--journal PATH is missing", "once", "--rounds", "2"),
    *no_command('"--journal" has no value', "once", "--journal"),
    *no_command('"--rounds" has no value', *ONCE, "--rounds"),
    *not_understood("more", *ONCE, "more"),
    *not_understood("j", "once", "j"),
    *no_value("-j", "--journal", TEXT, "once", "--journal", "-j"),
    *no_value("-", "--journal", TEXT, "once", "--journal", "-"),
    *no_value("--role", "--journal", TEXT, "once", "--journal", "--role", "em"),
    *no_value("-h", "--vim", TEXT, "once", "--vim", "-h", *AT_J),
    *no_value("-o", "--orchestrator", TEXT, *ONCE, "--orchestrator", "-o"),
    *not_understood("--journal=j", "once", "--journal=j"),
    *not_understood("--rounds=2", *ONCE, "--rounds=2", "x"),
    *not_understood("--", *ONCE, "--", "x"),
    *not_understood("--jour", "once", "--jour", "j"),
    *not_understood("-j", "once", "-j", "j"),
    *not_understood("--Journal", "once", "--Journal", "j"),
    *stands_twice("--journal", *ONCE, *AT_J),
    *stands_twice("--rounds", *ONCE, "--rounds", "2", "--rounds", "2"),
    *stands_twice("--vim", *ONCE, "--vim", "v", "--vim"),
    *no_value("EM", "--role", ROLE, *ONCE, "--role", "EM"),
    *no_value("", "--role", ROLE, *ONCE, "--role", ""),
    *no_value("", "--rounds", NUMBER, *ONCE, "--rounds", ""),
    *no_value("4294967296", "--rounds", NUMBER, *ONCE, "--rounds", "4294967296"),
    *no_value("-1", "--rounds", NUMBER, *ONCE, "--rounds", "-1"),
    *no_value("+1", "--rounds", NUMBER, *ONCE, "--rounds", "+1"),
    *not_understood("--manager", *ONCE, "--manager", "7"),
    *not_understood("--listen", *ONCE, "--listen", "h:1"),
    *not_understood("--rounds", "onboard", *AT_J, "--rounds", "1"),
    *no_command("--manager N is missing", "init", *AT_J),
    *no_command("--journal PATH is missing", "init", "--manager", "7"),
    *no_value("000000000000000000007", "--manager", NUMBER, "init", *AT_J, "--manager", "000000000000000000007"),
    *no_value("\u0667", "--manager", NUMBER, "init", *AT_J, "--manager", "\u0667"),
    *not_understood("--help", "init", *AT_J, "--help", "7"),
)
