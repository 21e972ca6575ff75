"""The arguments of the commands of tools/: the help, the options, and what is refused."""

import getopt

from toolkit import streams


class Wrong(Exception):
    """What is wrong with the arguments."""


def command(name, text, main, arguments, short="", long=()):
    """Runs a command by streams.command, whose main function gets its options, as a dictionary, and the other words.
    -h and --help print the text of its help. What is no option of it, and what it refuses by Wrong, is told with the
    help's lines on how it is called."""

    def checked(arguments):
        try:
            options, words = getopt.gnu_getopt(arguments, "h" + short, ["help", *long])
            options = dict(options)
            if "-h" in options or "--help" in options:
                streams.write_output(text.encode())
                return 0
            return main(options, words)
        except (getopt.GetoptError, Wrong) as fault:
            forms = "\n".join(line for line in text.splitlines() if line.startswith(f"    tools/{name}"))
            streams.say(f"{name}: {fault}\n{forms}\ntools/{name} --help says more")
            return streams.USAGE

    return streams.command(name, checked, arguments)
