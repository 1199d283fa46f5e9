"""What the scripts of an office share: texts, records, tables of documents, causes, rules, building and packing."""
