
// ============================================================================
// Appended by compare/original/build.rs: a way to the pool and to the manager from outside.
// ============================================================================

pub struct Pool(VirtualMemoryPool);

impl Pool {
    /// Page size is the driver's granularity: no override.
    pub fn open(va_size: usize, initial_pages: usize) -> Self {
        Self(open_pool(va_size, initial_pages))
    }

    pub fn base(&self) -> u64 {
        self.0.roots[0]
    }

    pub fn page_size(&self) -> u64 {
        self.0.page_size as u64
    }

    pub fn malloc(&mut self, requested: usize, stream: &StreamGuard) -> Result<u64, MemoryError> {
        self.0.malloc_internal(requested, stream).map(|ptr| ptr as u64)
    }

    pub fn free(&mut self, address: u64) -> Result<(usize, StreamGuard), MemoryError> {
        self.0.free_internal(address as *mut c_void)
    }

    pub fn tables(&self) -> crate::tables::Tables {
        self.0.tables()
    }
}

fn open_pool(va_size: usize, initial_pages: usize) -> VirtualMemoryPool {
    VirtualMemoryPool::new(vm_pool::VpmmConfig {
        page_size: None,
        va_size,
        initial_pages,
    })
}

/// Not dropped unless it is closed.
pub struct Manager(std::mem::ManuallyDrop<MemoryManager>);

impl Manager {
    /// As `MemoryManager::new`, but for where the pool's configuration comes from.
    pub fn open(va_size: usize, initial_pages: usize) -> Self {
        Self(std::mem::ManuallyDrop::new(MemoryManager {
            pool: open_pool(va_size, initial_pages),
            allocated_ptrs: HashMap::new(),
            current_size: 0,
            max_used_size: 0,
        }))
    }

    pub fn malloc(&mut self, size: usize, stream: &StreamGuard) -> Result<u64, MemoryError> {
        self.0.d_malloc_on(size, stream).map(|ptr| ptr as u64)
    }

    pub fn free(&mut self, address: u64) -> Result<StreamGuard, MemoryError> {
        unsafe { self.0.d_free_under_lock(address as *mut c_void) }
    }

    pub fn close(self) {
        drop(std::mem::ManuallyDrop::into_inner(self.0));
    }

    /// `MemTracker` speaks of the one manager of the process: this one stands in its place meanwhile.
    pub fn reset_peak(&mut self) {
        static TURN: Mutex<()> = Mutex::new(());
        let _turn = TURN.lock().unwrap();
        let here: *mut MemoryManager = &mut *self.0;
        unsafe {
            let mut moved = Some(std::ptr::read(here));
            let place = MEMORY_MANAGER.get_or_init(|| Mutex::new(moved.take().unwrap()));
            if let Some(moved) = moved {
                // What stood there before was moved away, and is not to be dropped.
                std::ptr::write(&mut *place.lock().unwrap(), moved);
            }
            drop(MemTracker::start_and_reset_peak("compare"));
            std::ptr::write(here, std::ptr::read(&*place.lock().unwrap()));
        }
    }

    pub fn base(&self) -> u64 {
        self.0.pool.roots[0]
    }

    pub fn page_size(&self) -> u64 {
        self.0.pool.page_size as u64
    }

    /// Bytes held now, and the most that were.
    pub fn bytes(&self) -> (u64, u64) {
        (self.0.current_size as u64, self.0.max_used_size as u64)
    }

    pub fn tables(&self) -> crate::tables::Tables {
        self.0.pool.tables()
    }

    /// By ascending pointer.
    pub fn small(&self) -> Vec<crate::tables::Small> {
        let mut small: Vec<_> = (self.0.allocated_ptrs.iter())
            .map(|(pointer, record)| crate::tables::Small {
                pointer: pointer.as_ptr() as u64,
                size: record.size as u64,
                stream: crate::driver::stream_number(record.stream.as_raw()),
            })
            .collect();
        small.sort();
        small
    }
}
