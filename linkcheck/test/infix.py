"""Terms in infix, as linkcheck writes them, read in another way than it writes them: they become Python's, as in tables.py."""
import re
import tables


class Reader:
    def __init__(self, text):
        self.words = re.findall(r'[a-z]+[0-9]*|[0-9]+|!=|>=|[=<+()-]', text)
        if ''.join(self.words) != text.replace(' ', ''): raise ValueError(text)
        self.at = 0

    def next(self, *due):
        """passes the next word if it is one of these"""
        word = self.words[self.at] if self.at < len(self.words) else ''
        if due and word not in due: return None
        self.at += 1
        return word

    def need(self, *due):
        word = self.next(*due)
        if word is None: raise ValueError(self.words)
        return word

    def joined(self, part, words, join):
        found = part()
        while True:
            word = self.next(*words)
            if not word: return found
            found = join(found, word, part())

    def value(self):
        if not self.next('if'): return self.joined(self.product, '+-', lambda a, word, b: '((%s %s %s) & 65535)' % (a, word, b))
        condition = self.formula()
        self.need('then')
        first = self.joined(self.product, '+-', lambda a, word, b: '((%s %s %s) & 65535)' % (a, word, b))
        self.need('else')
        return '(%s if %s else %s)' % (first, condition, self.value())

    def product(self):
        return self.joined(self.leaf, ('mod',), lambda a, _, b: '(%s %% %s)' % (a, b))

    def leaf(self):
        word = self.next()
        if word == '(':
            found = self.value()
            self.need(')')
            return found
        if re.fullmatch('[pq][0-7]', word): return 'p[%s]' % word[1]
        if word == 's' or word.isdigit(): return word
        raise ValueError(self.words)

    def formula(self):
        return self.joined(self.both, ('or',), lambda a, _, b: '(%s | %s)' % (a, b))

    def both(self):
        return self.joined(self.single, ('and',), lambda a, _, b: '(%s & %s)' % (a, b))

    def single(self):
        if self.next('not'): return '(not %s)' % self.single()
        word = self.next('true', 'false')
        if word: return word.capitalize()
        kept = self.at
        try: return self.comparison()
        except (ValueError, AttributeError, TypeError): self.at = kept
        self.need('(')
        found = self.formula()
        self.need(')')
        return found

    def comparison(self):
        first = self.value()
        sign = self.need('=', '!=', '<', '>=')
        return '(%s %s %s)' % (first, '==' if sign == '=' else sign, self.value())


def formula(text):
    """the formula over the parameters p and the sum value s, None where it has no value"""
    reader = Reader(text)
    found = reader.formula()
    if reader.at < len(reader.words): raise ValueError(text)
    return tables.function(found)


def reads(text):
    return set(re.findall(r'\b(?:[pq][0-7]|s)\b', text))
