"""An independent model of documents 01 and 02: tables, type check, calls, machine and session, on plain lists of words."""
