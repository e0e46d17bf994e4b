// The contacts program on several machines, by MPI. Each rank collects the contacts of its part of the particles in a vector of its
// own, with four threads. Then the first rank gathers all of them in the order of ranks: each run of a segment is sent from where it
// lies in the vector, without a copy.
//
//   mpirun -n RANKS contacts_mpi [PARTICLES [SEED]]
#include "contacts.hpp"

#include <mpi.h>

#include <cstdlib>
#include <thread>

// The most contacts of one message, whose length MPI counts by an int.
constexpr size_t MOST = 1 << 20;

// Sends the contacts to the first rank, in runs. An empty message is the last one.
static void send(const concurrent_vector<Contact> &contacts, MPI_Datatype type) {
  size_t place = 0;
  for (auto run = contacts.run(place); run.second; run = contacts.run(place)) {
    const size_t count = std::min(run.second, MOST);
    MPI_Send(run.first, int(count), type, 0, 0, MPI_COMM_WORLD);
    place += count;
  }
  MPI_Send(nullptr, 0, type, 0, 0, MPI_COMM_WORLD);
}

// Appends the contacts that a rank sends.
static void receive(int rank, std::vector<Contact> &contacts, MPI_Datatype type) {
  for (int count = 1; count > 0;) {
    MPI_Status status;
    MPI_Probe(rank, 0, MPI_COMM_WORLD, &status);
    MPI_Get_count(&status, type, &count);
    const size_t old = contacts.size();
    contacts.resize(old + size_t(count));
    MPI_Recv(contacts.data() + old, count, type, rank, 0, MPI_COMM_WORLD, MPI_STATUS_IGNORE);
  }
}

int main(int argc, char **argv) {
  int provided, rank, ranks;
  // The first thread of each rank alone calls MPI.
  MPI_Init_thread(&argc, &argv, MPI_THREAD_FUNNELED, &provided);
  MPI_Comm_rank(MPI_COMM_WORLD, &rank);
  MPI_Comm_size(MPI_COMM_WORLD, &ranks);
  const auto particles = scatter(argc > 1 ? strtoul(argv[1], nullptr, 10) : 2000, argc > 2 ? strtoull(argv[2], nullptr, 10) : 1);
  concurrent_vector<Contact> contacts;
  std::vector<std::thread> threads;
  for (unsigned number = 0; number < FINDERS; ++number)
    threads.emplace_back([&, number] { find(particles, size_t(rank) * FINDERS + number, size_t(ranks) * FINDERS, contacts); });
  for (std::thread &thread : threads)
    thread.join();
  MPI_Datatype type;
  MPI_Type_contiguous(3, MPI_UINT64_T, &type);
  MPI_Type_commit(&type);
  if (rank > 0) {
    send(contacts, type);
  } else {
    std::vector<Contact> all = contacts.into_vector();
    for (int other = 1; other < ranks; ++other)
      receive(other, all, type);
    print(all);
  }
  MPI_Type_free(&type);
  MPI_Finalize();
}
