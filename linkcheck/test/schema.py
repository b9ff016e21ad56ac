#!/usr/bin/env python3
"""Holds each line of standard input, which linkcheck --json or linkcheck --measure --json wrote, against linkcheck/schema.json: as much of
JSON Schema, draft 2020-12, as that needs, and an error for the rest. Says how many lines each definition took. Ends with 1 at the first
fault."""
import collections
import json
import os
import re
import sys

TYPES = {'object': dict, 'array': list, 'string': str, 'integer': int, 'boolean': bool}
PLAIN = {'$schema', '$defs', 'title', 'description'}


def once(pairs):
    """an object whose members have different names"""
    found = dict(pairs)
    if len(found) != len(pairs): raise ValueError('a member twice')
    return found


class Schema:
    def __init__(self, name):
        with open(name) as file: self.whole = json.load(file, object_pairs_hook=once)
        self.used = collections.Counter()

    def faults(self, value, schema):
        """what is wrong, None if nothing is"""
        for word, rule in schema.items():
            if word in PLAIN: continue
            fault = getattr(self, 'by_' + word.strip('$'))(value, rule, schema)
            if fault: return fault
        return None

    def by_ref(self, value, rule, _):
        name = rule[len('#/$defs/'):]
        fault = self.faults(value, self.whole['$defs'][name])
        if not fault: self.used[name] += 1
        return fault and '%s: %s' % (name, fault)

    def by_oneOf(self, value, rules, _):
        found = [self.faults(value, rule) for rule in rules]
        return None if found.count(None) == 1 else '%d of these hold: %s' % (found.count(None), '; '.join(filter(None, found)))

    def by_type(self, value, rule, _):
        return None if type(value) is TYPES[rule] else 'no ' + rule

    def by_const(self, value, rule, _):
        return None if type(value) is type(rule) and value == rule else 'not %s' % rule

    def by_enum(self, value, rule, _):
        return None if value in rule else 'none of %s' % rule

    def by_minimum(self, value, rule, _):
        return 'below %d' % rule if value < rule else None

    def by_maximum(self, value, rule, _):
        return 'above %d' % rule if value > rule else None

    def by_minLength(self, value, rule, _):
        return 'too short' if len(value) < rule else None

    def by_minItems(self, value, rule, _):
        return 'too few' if len(value) < rule else None

    def by_maxItems(self, value, rule, _):
        return 'too many' if len(value) > rule else None

    def by_items(self, value, rule, _):
        return next(filter(None, (self.faults(item, rule) for item in value)), None)

    def by_required(self, value, rule, _):
        lacking = [member for member in rule if member not in value]
        return 'without %s' % lacking[0] if lacking else None

    def by_properties(self, value, rule, _):
        found = ((member, self.faults(value[member], rule[member])) for member in value if member in rule)
        return next(('%s: %s' % (member, fault) for member, fault in found if fault), None)

    def by_patternProperties(self, value, rule, _):
        found = ((member, self.faults(value[member], rule[pattern])) for pattern in rule for member in value if re.search(pattern, member))
        return next(('%s: %s' % (member, fault) for member, fault in found if fault), None)

    def by_additionalProperties(self, value, rule, schema):
        if rule is not False: raise ValueError('additionalProperties')
        patterns, known = schema.get('patternProperties', {}), schema.get('properties', {})
        other = [member for member in value if member not in known and not any(re.search(pattern, member) for pattern in patterns)]
        return 'also %s' % other[0] if other else None


schema = Schema(os.path.join(os.path.dirname(sys.argv[0]), '..', 'schema.json'))
lines = 0
for line in sys.stdin:
    told = json.loads(line, object_pairs_hook=once)
    fault = schema.faults(told, schema.whole)
    if fault: sys.exit('schema: %s: %s' % (line.strip()[:1000], fault))
    lines += 1
tops = [rule['$ref'][len('#/$defs/'):] for rule in schema.whole['oneOf']]
print('schema: %d lines: ' % lines + ', '.join('%d %s' % (schema.used[name], name) for name in tops if schema.used[name]))
