"""What if: from a plan, a file that says what each scenario does, to a feed that has the trips of all scenarios."""
