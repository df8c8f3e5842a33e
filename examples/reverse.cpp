#include <sycl/sycl.hpp>
#include <iostream>
#include <vector>
using namespace sycl;

// Reverses each work-group's eight numbers, through memory that the work-group shares.
int main() {
  std::vector<int> v;
  for (int i = 0; i < 16; ++i) v.push_back(i);
  queue q;
  {
    buffer b{v};
    q.submit([&](handler& h) {
      accessor a{b, h};
      local_accessor<int> l{range<1>{8}, h};
      h.parallel_for(nd_range<1>{range<1>{16}, range<1>{8}}, [=](nd_item<1> it) {
        size_t g = it.get_global_id(0);
        size_t k = it.get_local_id(0);
        l[k] = a[g];
        group_barrier(it.get_group());
        a[g] = l[7 - k];
      });
    });
  }
  for (int x : v) std::cout << x << ' ';
}
