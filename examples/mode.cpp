#include <sycl/sycl.hpp>

// Rejected: the kernel reads what its accessor may only write.
int main() {
    sycl::queue q;
    sycl::buffer<int> b{{8}};
    q.submit([&](sycl::handler& h) {
        sycl::accessor a{b, h, sycl::write_only};
        h.parallel_for(sycl::range<1>{8}, [=](sycl::id<1> i) { a[i] = a[i] + 1; });
    });
}
