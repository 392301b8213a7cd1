"""What the trials of lab net are made of."""
