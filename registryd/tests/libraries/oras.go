package main

import (
	"context"
	"encoding/json"

	"github.com/containerd/containerd/remotes"
	"github.com/opencontainers/go-digest"
	"github.com/opencontainers/image-spec/specs-go"
	v1 "github.com/opencontainers/image-spec/specs-go/v1"
	"oras.land/oras-go/pkg/content"
	"oras.land/oras-go/pkg/oras"
	"oras.land/oras-go/pkg/registry"
	"oras.land/oras-go/pkg/registry/remote"
)

// artifact is a manifest with the field that this version of the library does not know.
type artifact struct {
	v1.Manifest
	ArtifactType string `json:"artifactType"`
}

const (
	emptyType = "application/vnd.oci.empty.v1+json"
	textType  = "text/plain"
)

// playOras pushes an artifact and a second one that describes it, and pulls both.
func playOras(ctx context.Context, address string) {
	// The library warns of a media type that it does not know and that has no prefix.
	for _, mediaType := range []string{emptyType, textType} {
		ctx = remotes.WithMediaTypeKeyPrefix(ctx, mediaType, "artifact")
	}
	name := address + "/acme/artifacts"
	subject := playArtifact(ctx, name+":v1", nil, 1)
	playArtifact(ctx, name+":description", &subject, 2)
	store := openRegistry()
	_, err := oras.Copy(ctx, store, name+":v1", store, name+":v2")
	check("tag an artifact again", err)
	_, found, err := store.Resolve(ctx, name+":v2")
	check("resolve a tag", err)
	expect("resolve a tag", found, subject)
	listTags(ctx, name, []string{"description", "v1", "v2"})
}

// openRegistry returns a client that has pushed nothing. A client sends a manifest only once, even for a second tag.
func openRegistry() *content.Registry {
	store, err := content.NewRegistry(content.RegistryOptions{PlainHTTP: true})
	check("open a registry", err)
	return store
}

// playArtifact pushes an artifact with two blobs, resolves its tag and pulls it by tag and by digest.
func playArtifact(ctx context.Context, name string, subject *v1.Descriptor, seed int64) v1.Descriptor {
	store, local := openRegistry(), content.NewMemory()
	root, parts := makeArtifact(local, name, subject, seed)
	pushed, err := oras.Copy(ctx, local, name, store, "")
	check("push an artifact", err)
	expect("push an artifact", pushed, root)
	_, found, err := store.Resolve(ctx, name)
	check("resolve a tag", err)
	expect("resolve a tag", found, root)
	for _, reference := range []string{name, name + "@" + root.Digest.String()} {
		back := content.NewMemory()
		pulled, err := oras.Copy(ctx, store, reference, back, "")
		check("pull an artifact", err)
		expect("pull an artifact", pulled, root)
		for _, part := range parts {
			_, expected, _ := local.Get(part)
			_, data, ok := back.Get(part)
			expect("find a pulled blob", ok, true)
			expect("read a pulled blob", data, expected)
		}
	}
	return root
}

// makeArtifact stores an artifact in memory, and returns the descriptors of its manifest and of all its parts.
func makeArtifact(
	local *content.Memory, name string, subject *v1.Descriptor, seed int64,
) (v1.Descriptor, []v1.Descriptor) {
	config, err := local.Add("", emptyType, []byte("{}"))
	check("add a configuration", err)
	small, err := local.Add("small", textType, randomBytes(1000, seed))
	check("add a blob", err)
	large, err := local.Add("large", textType, randomBytes(3_000_000, seed))
	check("add a blob", err)
	text, err := json.Marshal(artifact{ArtifactType: textType, Manifest: v1.Manifest{
		Versioned: specs.Versioned{SchemaVersion: 2}, MediaType: v1.MediaTypeImageManifest,
		Config: config, Layers: []v1.Descriptor{small, large}, Subject: subject,
	}})
	check("write a manifest", err)
	root := v1.Descriptor{MediaType: v1.MediaTypeImageManifest, Digest: digest.FromBytes(text), Size: int64(len(text))}
	check("store a manifest", local.StoreManifest(name, root, text))
	return root, []v1.Descriptor{root, config, small, large}
}

// listTags lists the tags of a repository in pages of one.
func listTags(ctx context.Context, name string, expected []string) {
	repository, err := remote.NewRepository(name)
	check("open a repository", err)
	repository.PlainHTTP, repository.TagListPageSize = true, 1
	found, err := registry.Tags(ctx, repository)
	check("list the tags", err)
	expect("list the tags", found, expected)
}
