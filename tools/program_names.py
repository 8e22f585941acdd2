"""The names that an accepted program declares, by their numbers: what the tools that list code and logs have in common."""
import re


class Names:
    """The names of the globals of an accepted program, by what they are and in order of declaration. An array is as often among the
    variables as it has elements, which have names of their own."""

    def __init__(self, text):
        self.variables, self.elements, self.tables, self.functions = [], [], [], []
        text = re.sub(r"//[^\n]*|/\*.*?\*/", " ", text, flags=re.S)
        for item in items(re.findall(r"\w+|\S", text)):
            self.add(item)

    def add(self, words):
        """Takes the names of a declaration or of a function."""
        if words[-1] == "}":
            self.functions += words[1:2] if words[0] == "int" else []
            return
        depth, begins = 0, False
        for at, word in enumerate(words):
            depth += (word in "([{") - (word in ")]}")
            if begins:
                array = words[at + 1] == "["
                if words[0] == "const":
                    self.tables += [word] if array else []
                else:
                    own = [f"{word}[{i}]" for i in range(number_of(words[at + 2]))] if array else [word]
                    self.variables += [word] * len(own)
                    self.elements += own
            begins = depth == 0 and word in ("int", ",")

    def of(self, kind, number):
        names = self.tables if kind == "table" else self.functions if kind in ("call", "function") else self.variables
        return names[number] if number < len(names) else ""


def number_of(word):
    """The value of a number as a program has it: octal where it begins with 0."""
    return int(re.sub(r"^0(?=\d)", "0o", word), 0)


def items(words):
    """The declarations and functions of a text, each as its words."""
    item, depth, body = [], 0, False
    for word in words:
        body = body or word == "{" and depth == 0 and item[-1:] == [")"]
        depth += (word in "([{") - (word in ")]}")
        item.append(word)
        if depth == 0 and (word == ";" or word == "}" and body):
            yield item
            item, body = [], False
