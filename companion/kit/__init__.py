"""What `sitekit` is made of: a companion for the people who run and write a site."""
