# This file is part of witval, a validator of software verification witnesses.
#
# SPDX-License-Identifier: Apache-2.0

"""BenchExec tool-info module of witval: stands as benchexec/tools/witval.py, or in a folder that --tool-directory names."""

import os

import benchexec.result as result
import benchexec.tools.template
from benchexec.tools.template import UnsupportedFeatureException

# Only a person can state it: contrib/CONTACT has it, and tools/archive writes it here.
PROJECT_URL = None

# An option of this module, not of witval: a violation is answered as false(NAME), NAME being the property file's without .prp, as other modules of
# SV-COMP answer it: false(unreach-call). Without it the answer is false, which is meant for the task's one property.
NAME_PROPERTY = "--name-property"

# The codes of `refused CODE` by what has to be changed (docs/FORMATS.md has the table); `too-long` goes by its detail.
OF_WITNESS = (
    "yaml-bytes yaml-grammar yaml-duplicate schema-missing schema-kind schema-value schema-version schema-shape schema-entries"
    " files hash specification language model uuid place expression scope task-model task-language"
).split()
OF_PROGRAM = (
    "token directive syntax check-name check-again check-typing check-size check-order check-body check-main check-cells property"
    " recursion weight"
).split()
OF_FILE = {"witness": OF_WITNESS, "program": OF_PROGRAM, "property": OF_PROGRAM}

FIRST_LINES = {
    "violation confirmed": result.RESULT_FALSE_PROP,
    "correctness confirmed": result.RESULT_TRUE_PROP,
    # this witness doesn't show it, which doesn't say that it isn't so
    "violation not confirmed": result.RESULT_UNKNOWN,
    "correctness not confirmed": result.RESULT_UNKNOWN,
}


class Tool(benchexec.tools.template.BaseTool2):
    """Tool info for witval, which judges witnesses of format 2.0 about integer C programs."""

    REQUIRED_PATHS = ["witval", "witval-task", "release"]

    def executable(self, tool_locator):
        return tool_locator.find_executable("witval")

    def version(self, executable):
        return self._version_from_tool(executable, line_prefix="witval ")

    def name(self):
        return "witval"

    def project_url(self):
        return PROJECT_URL

    def cmdline(self, executable, options, task, rlimits):
        """The witness is an option (--witness FILE) or an input file. Where the task has a data model or a language, witval-task is
        called: a witness that states another gets no verdict."""
        files = list(task.input_files_or_identifier)
        witnesses = [it for it in files if it.endswith((".yml", ".yaml", ".graphml"))]
        programs = [it for it in files if it not in witnesses]
        is_option = any(it == "--witness" or it.startswith("--witness=") for it in options)
        if len(programs) != 1:
            raise UnsupportedFeatureException("witval judges a witness about one program")
        if not task.property_file:
            raise UnsupportedFeatureException("witval needs a property file")
        if len(witnesses) + is_option != 1:
            raise UnsupportedFeatureException("witval needs one witness, as an option or as an input file")
        words = self._start(executable, task, NAME_PROPERTY in options) + ["validate", "--program", programs[0], "--property", task.property_file]
        words += [word for it in witnesses for word in ("--witness", it)]
        return words + [it for it in options if it != NAME_PROPERTY]

    def _start(self, executable, task, names_property):
        """The executable for a task, with the options of the task that it compares with those of the witness. (witval-task passes the module's own
        option over, so that it stands on the command that determine_result sees.)"""
        given = task.options if isinstance(getattr(task, "options", None), dict) else {}
        model, language = given.get("data_model"), given.get("language")
        if model not in (None, "ILP32", "LP64"):
            raise UnsupportedFeatureException(f"witval has no data model {model!r}")
        if language not in (None, "C"):
            raise UnsupportedFeatureException(f"witval judges no programs in {language!r}")
        words = [word for name, value in (("--data-model", model), ("--language", language)) if value for word in (name, value)]
        words += [NAME_PROPERTY] if names_property else []
        return [os.path.join(os.path.dirname(executable), "witval-task"), *words] if words else [executable]

    def determine_result(self, run):
        if run.was_timeout:
            return result.RESULT_TIMEOUT
        if run.exit_code.signal:
            return result.RESULT_ERROR
        # (where the program was built first, the script says so on standard error, which is a part of the output)
        for line in run.output:
            found = self._result_of(line.rstrip("\r\n"))
            if found:
                return self._named(found, getattr(run, "cmdline", ()))
        return {6: "OUT OF MEMORY", 8: f"{result.RESULT_ERROR} (not built)"}.get(run.exit_code.value, result.RESULT_ERROR)

    def _named(self, found, words):
        """false(NAME) for false, where the command has the module's option and a property."""
        if found != result.RESULT_FALSE_PROP or NAME_PROPERTY not in words or "--property" not in words:
            return found
        name = os.path.basename(words[words.index("--property") + 1])
        return f"{found}({name[:-4] if name.endswith('.prp') else name})"

    def _result_of(self, line):
        """What the first line of a reply comes to, or None where the line is none."""
        words = line.split(" ")
        if line in FIRST_LINES:
            return FIRST_LINES[line]
        if words[0] == "undecided" and len(words) > 1:
            return result.RESULT_UNKNOWN
        if words[:2] == ["fault", "read"]:
            return f"{result.RESULT_ERROR} (cannot read the {words[-1]})"
        if words[0] == "refused" and len(words) > 1:
            return self._refusal(words[1], words[-1])
        return None

    def _refusal(self, code, detail):
        group = OF_FILE.get(detail, []) if code == "too-long" else [code]
        if code in OF_WITNESS or code == "too-long" and group is OF_WITNESS:
            return f"{result.RESULT_ERROR} (invalid witness: {code})"
        if code in OF_PROGRAM or code == "too-long" and group is OF_PROGRAM:
            return f"{result.RESULT_ERROR} (unsupported: {code})"
        return f"{result.RESULT_ERROR} (misuse: {code})"
