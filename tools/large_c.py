#!/usr/bin/env python3
"""Prints a C file of an extension with as many functions as are asked for, to measure `brc c` by, or writes them into the
files of a folder, 500 in each.

    python3 tools/large_c.py 200 > large.c
    time crates/brc/out/brc c large.c
    python3 tools/large_c.py 5500 large
    time crates/brc/out/brc c large/*.c

The functions are of six sorts in turn, of 13 to 25 lines each: labels that paths share, loops, items of lists in critical
sections, dictionaries, flags, and arguments. A function in thirty loses a reference.
"""
import os
import sys

HEAD = """#include <Python.h>

"""

SORTS = [
    """static PyObject *
sum_{n}(PyObject *self, PyObject *args)
{{
    PyObject *a = NULL, *b = NULL, *sum = NULL;
    a = PyLong_FromLong({n});
    if (a == NULL)
        goto done;
    b = PyLong_FromLong(2);
    if (b == NULL)
        goto done;
    sum = PyNumber_Add(a, b);
    if (sum == NULL)
        goto done;
    if (PyLong_AsLong(sum) == -1 && PyErr_Occurred())
        Py_CLEAR(sum);
done:
    Py_XDECREF(a);
    Py_XDECREF(b);
    return sum;
}}
""",
    """static Py_ssize_t
count_{n}(PyObject *seq, Py_ssize_t n)
{{
    Py_ssize_t found = 0;
    for (Py_ssize_t i = 0; i < n; i++) {{
        PyObject *item = PySequence_GetItem(seq, i);
        if (item == NULL)
            return -1;
        if (!PyUnicode_Check(item)) {{
            {give}continue;
        }}
        found++;
        Py_DECREF(item);
    }}
    return found;
}}
""",
    """static PyObject *
head_{n}(PyObject *self, PyObject *list)
{{
    PyObject *item, *text;
    Py_BEGIN_CRITICAL_SECTION(list);
    item = PyList_GetItem(list, 0);
    Py_XINCREF(item);
    Py_END_CRITICAL_SECTION();
    if (item == NULL)
        return NULL;
    text = PyObject_Str(item);
    Py_DECREF(item);
    return text;
}}
""",
    """static int
put_{n}(PyObject *dict, PyObject *key, PyObject *list)
{{
    PyObject *value;
    int rc = PyDict_GetItemRef(dict, key, &value);
    if (rc < 0)
        return -1;
    if (rc == 0) {{
        value = PyLong_FromLong({n});
        if (value == NULL)
            return -1;
        rc = PyDict_SetItem(dict, key, value);
        if (rc < 0) {{
            Py_DECREF(value);
            return -1;
        }}
    }}
    rc = PyList_Append(list, value);
    Py_DECREF(value);
    return rc;
}}
""",
    """static PyObject *
text_{n}(PyObject *self, PyObject *arg)
{{
    int owned = 0;
    PyObject *x = arg, *r;
    if (!PyUnicode_Check(arg)) {{
        x = PyObject_Str(arg);
        if (x == NULL)
            return NULL;
        owned = 1;
    }}
    r = PyUnicode_AsUTF8String(x);
    if (owned)
        Py_DECREF(x);
    return r;
}}
""",
    """static PyObject *
joined_{n}(PyObject *self, PyObject *args)
{{
    PyObject *left, *right = NULL, *both, *boxed;
    int width = 0;
    if (!PyArg_ParseTuple(args, "O|Oi:joined", &left, &right, &width))
        return NULL;
    if (right == NULL)
        return Py_NewRef(left);
    both = PySequence_Concat(left, right);
    if (both == NULL)
        return NULL;
    boxed = Py_BuildValue("(Oi)", both, width);
    Py_DECREF(both);
    return boxed;
}}
""",
]


FUNCTIONS_OF_A_FILE = 500


def text_of(numbers):
    text = HEAD
    for number in numbers:
        give = "" if number % 30 == 1 else "Py_DECREF(item);\n            "
        text += SORTS[number % len(SORTS)].format(n=number, give=give) + "\n"
    return text


def main():
    if len(sys.argv) not in (2, 3) or not sys.argv[1].isdigit():
        sys.exit(__doc__)
    count = int(sys.argv[1])
    if len(sys.argv) == 2:
        print(text_of(range(count)), end="")
        return
    os.makedirs(sys.argv[2], exist_ok=True)
    for first in range(0, count, FUNCTIONS_OF_A_FILE):
        path = os.path.join(sys.argv[2], f"file_{first // FUNCTIONS_OF_A_FILE:02}.c")
        with open(path, "w", encoding="ascii") as file:
            file.write(text_of(range(first, min(first + FUNCTIONS_OF_A_FILE, count))))


main()
