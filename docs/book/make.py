#!/usr/bin/env python3
"""Makes the book of the definitions that the headline rests on: book.html, and book.txt to be printed.

    docs/book/make.py [FOLDER]

The definitions are those that checks/reading.py finds, each with its comment, and with the types and constants of the code that they
name. chapters.txt has their order, and a paragraph for each chapter. checks/book.sh makes the book anew and compares.
"""
import os
import sys

HERE = os.path.dirname(os.path.abspath(__file__))
TOP = os.path.join(HERE, "..", "..")
sys.path[:0] = [HERE, os.path.join(TOP, "checks")]
import chapters
import html_page
import plain_text


def main(folder):
    os.chdir(TOP)
    book = chapters.read(os.path.join(HERE, "chapters.txt"))
    for name, made in (("book.html", html_page.page(book)), ("book.txt", plain_text.text(book))):
        with open(os.path.join(folder, name), "w", encoding="utf-8") as file:
            file.write(made)


if __name__ == "__main__":
    main(os.path.abspath(sys.argv[1]) if len(sys.argv) > 1 else HERE)
