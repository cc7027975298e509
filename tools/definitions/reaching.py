"""What a definition reaches: all that it cites, and what those cite, down to leaves that are taken as words."""

from definitions.reading import Home


class Reached:
    """The definitions that some reach, in the order in which a reader meets them, and the leaves at which that ends: crates, and files as
    crate/file. Those of `later` are put off with all that only they reach."""

    def __init__(self, files, leaves, later=()):
        self.files, self.leaf_places, self.later = files, leaves, set(later)
        self.met, self.leaves, self.put_off = {}, {}, []

    def found(self, home):
        """The file that declares a name, also where a crate hands on the files of one below."""
        file = self.files.get((home.crate, home.file))
        if file and home.name in file.definitions:
            return file
        others = [it for (_, name), it in self.files.items() if name == home.file and home.name in it.definitions]
        return others[0] if others else None

    def follow(self, left):
        """Meets definitions and then what they cite, line by line."""
        left = list(left)
        while left:
            home = left.pop(0)
            file = self.found(home)
            if file is None:
                continue
            there = Home(file.crate, file.file, home.name)
            if {file.crate, file.place} & self.leaf_places:
                self.leaves.setdefault(there)
            elif there in self.later:
                self.put_off.append(there)
            elif file.definitions[home.name] not in self.met:
                definition = file.definitions[home.name]
                self.met[definition] = there
                left += [cited for word in definition.words if (cited := file.cited(word)) and cited.name not in definition.names]

    def follow_rest(self):
        """Meets those that were put off, too."""
        left, self.later, self.put_off = self.put_off, set(), []
        self.follow(left)
