#!/usr/bin/env -S cargo +nightly -Zscript
--- cargo
[package]
edition = "2024"

[dependencies]
# none: the standard library suffices
---
//! Density porosity of one well, from the bulk density log.

/// Matrix density in g/cm3: clean sandstone, from core plugs.
const RHO_MATRIX: f64 = 2.65;

/// Fluid density in g/cm3: fresh mud filtrate in the flushed zone.
const RHO_FLUID: f64 = 1.0;

/// Porosity below which a sample is not counted as reservoir.
const PHI_CUTOFF: f64 = 0.08;

/// φ = (ρ_matrix - ρ_bulk) / (ρ_matrix - ρ_fluid), as a fraction.
fn porosity(rho_bulk: f64) -> f64 {
    (RHO_MATRIX - rho_bulk) / (RHO_MATRIX - RHO_FLUID)
}

fn is_reservoir(rho_bulk: f64) -> bool {
    porosity(rho_bulk) >= PHI_CUTOFF
}

fn main() {
    for rho_bulk in [2.21, 2.38, 2.47, 2.61] {
        let phi = porosity(rho_bulk);
        let flag = if is_reservoir(rho_bulk) { "reservoir" } else { "-" };
        println!("{rho_bulk:.2}  {phi:.3}  {flag}");
    }
}
