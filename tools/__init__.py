"""What keeps the repository true: pages made from definitions and outputs, the rule on edits, wrong rules, premises, the library's test. Run in the repository's folder: python3 -m tools.NAME."""
