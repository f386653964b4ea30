"""What bash and zsh complete behind the program and the tools: commands, options, files, and the events that a problem names."""

from front import Command, filled

# What zsh shows; a quote in it ends nothing.
QUOTED = "'\\''"


def kinds_in(commands: list[Command], indent: str) -> str:
    """Returns a line of a `case` for each command, with the kinds of its words."""
    return "\n".join(f"{indent}{it.name}) kinds=({' '.join(it.words)}) ;;" for it in commands)


def bash_of(template: str, commands: list[Command]) -> str:
    """Returns the completions of the program for bash."""
    return filled(template, NAMES=" ".join(it.name for it in commands), KINDS=kinds_in(commands, "    "))


def bash_of_tool(template: str, tool: str, flags: list[str]) -> str:
    """Returns the completions of a tool for bash."""
    return filled(template, TOOL=tool, FLAGS=" ".join(flags))


def zsh_of(template: str, commands: list[Command], tools: dict[str, list[str]]) -> str:
    """Returns the completions of the program and its tools, with the options of each, for zsh."""
    told = "\n".join(f"    '{it.name}:{it.told.replace(chr(39), QUOTED)}'" for it in commands)
    flags = "\n".join(f"    tracesync-{tool}) flags=({' '.join(own)}) ;;" for tool, own in sorted(tools.items()))
    names = " ".join(f"tracesync-{it}" for it in sorted(tools))
    return filled(template, TOOLS=names, TOLD=told, KINDS=kinds_in(commands, "    "), FLAGS=flags)
