"""What goes wrong through what the user gave; each is one line that says where."""


class LabError(Exception):
    """Something that whoever called can mend."""


class Refused(LabError):
    """The program refused a policy or a workload; the text is its own line."""
