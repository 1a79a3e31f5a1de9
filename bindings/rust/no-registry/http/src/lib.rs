compile_error!("the feature `http` is built by a crate that depends on beanwhile-h3, with the true crate http");
