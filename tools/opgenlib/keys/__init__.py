"""The keys of a specification, by docs/keys.toml, and what is made from that table: schema, pages, templates, completion, documents."""
