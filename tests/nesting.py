"""Definitions of machines in one another."""


def nested(machines, members='"Type":"Succeed"'):
    """So many machines in one another, in canonical form, the two spellings of Map by turns. The innermost has one state of these members."""
    text = '{"StartAt":"Z","States":{"Z":{%s}}}' % members
    for level in reversed(range(1, machines)):
        name = "Iterator" if level % 2 else "ItemProcessor"
        text = '{"StartAt":"A%d","States":{"A%d":{"Type":"Map","%s":%s,"End":true}}}' % (level, level, name, text)
    return text
