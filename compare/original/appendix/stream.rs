
// ============================================================================
// Appended by compare/original/build.rs: the event as the driver knows it.
// ============================================================================

impl CudaEvent {
    pub(crate) fn as_raw(&self) -> cudaEvent_t {
        self.event
    }
}
