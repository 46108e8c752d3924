//! Stand-in for the original's choice of a device: there is one, number 0.

use crate::error::CudaError;

pub fn set_device() -> Result<i32, CudaError> {
    Ok(0)
}

pub fn set_device_by_id(_device: i32) -> Result<(), CudaError> {
    Ok(())
}

pub fn get_device() -> Result<i32, CudaError> {
    Ok(0)
}
