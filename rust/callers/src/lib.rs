//! Only tests: callers of the libraries beneath both programs.
