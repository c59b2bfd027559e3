//! Stand-in for `liblbfgs`: the face that `lbfgs.rs` compiles against. That trainer is left out of the port, so
//! nothing is minimised here: the call answers with an error.

/// What the progress callback is shown.
pub struct Progress {
    pub niter: usize,
    pub fx: f64,
    pub xnorm: f64,
    pub gnorm: f64,
}

/// What a run reports.
pub struct Report {
    pub fx: f64,
}

pub struct Lbfgs(());

pub fn lbfgs() -> Lbfgs {
    Lbfgs(())
}

impl Lbfgs {
    pub fn with_max_iterations(self, _: usize) -> Self {
        self
    }

    pub fn with_epsilon(self, _: f64) -> Self {
        self
    }

    pub fn with_fx_delta(self, _: f64, _: usize) -> Self {
        self
    }

    pub fn with_max_linesearch(self, _: usize) -> Self {
        self
    }

    pub fn with_linesearch_algorithm(self, _: &str) -> Self {
        self
    }

    pub fn with_orthantwise(self, _: f64, _: usize, _: usize) -> Self {
        self
    }

    pub fn minimize<E, P>(self, _: &mut [f64], _: E, _: P) -> Result<Report, anyhow::Error>
    where
        E: FnMut(&[f64], &mut [f64]) -> Result<f64, anyhow::Error>,
        P: FnMut(&Progress) -> bool,
    {
        Err(anyhow::Error("L-BFGS is not part of the oracle"))
    }
}
