package main

import (
	"bytes"
	"context"
	"errors"
	"fmt"
	"io"
	"net/http"

	"github.com/docker/distribution"
	"github.com/docker/distribution/manifest/ocischema"
	"github.com/docker/distribution/manifest/schema2"
	"github.com/docker/distribution/reference"
	"github.com/docker/distribution/registry/api/errcode"
	v2 "github.com/docker/distribution/registry/api/v2"
	"github.com/docker/distribution/registry/client"
	"github.com/opencontainers/go-digest"
	v1 "github.com/opencontainers/image-spec/specs-go/v1"
)

const blobType = "application/octet-stream"

// playDistribution tests the calls of the client library of docker's registry.
func playDistribution(ctx context.Context, address string) {
	from, to := openRepository(address, "acme/from"), openRepository(address, "acme/to")
	layer := uploadInChunks(ctx, from, randomBytes(3_000_000, 1))
	cancelUpload(ctx, from)
	config, err := from.Blobs(ctx).Put(ctx, blobType, []byte("{}"))
	check("put a blob", err)
	for _, blob := range []distribution.Descriptor{layer, config} {
		mountBlob(ctx, from, to, blob)
	}
	deleteBlobs(ctx, from, layer, config)
	config.MediaType, layer.MediaType = schema2.MediaTypeImageConfig, schema2.MediaTypeLayer
	image, err := schema2.FromStruct(schema2.Manifest{
		Versioned: schema2.SchemaVersion, Config: config, Layers: []distribution.Descriptor{layer},
	})
	check("make a manifest of docker's type", err)
	playManifest(ctx, to, image)
	config.MediaType, layer.MediaType = v1.MediaTypeImageConfig, v1.MediaTypeImageLayer
	ociImage, err := ocischema.FromStruct(ocischema.Manifest{
		Versioned: ocischema.SchemaVersion, Config: config, Layers: []distribution.Descriptor{layer},
	})
	check("make a manifest of OCI's type", err)
	playManifest(ctx, to, ociImage)
	deleteBlobs(ctx, to, layer, config)
}

func openRepository(address, name string) distribution.Repository {
	named, err := reference.WithName(name)
	check("name a repository", err)
	repository, err := client.NewRepository(named, "http://"+address, http.DefaultTransport)
	check("open a repository", err)
	return repository
}

// uploadInChunks uploads a blob in three chunks, and reads it whole and from an offset. The library has two calls for
// a chunk. Both return the length of the upload. Write sends a range that begins at 0 for every chunk, so a second one
// has to fail.
func uploadInChunks(ctx context.Context, repository distribution.Repository, data []byte) distribution.Descriptor {
	blobs, third := repository.Blobs(ctx), len(data)/3
	writer, err := blobs.Create(ctx)
	check("begin an upload", err)
	length, err := writer.Write(data[:third])
	check("write a chunk", err)
	expect("write a chunk", length, third)
	_, err = writer.Write(data[third : 2*third])
	expectCode("write a chunk with the range of the first", err, v2.ErrorCodeBlobUploadInvalid)
	for end := 2 * third; end <= len(data); end += third {
		length, err := writer.ReadFrom(bytes.NewReader(data[end-third : end]))
		check("stream a chunk", err)
		expect("stream a chunk", length, int64(end))
	}
	expected := distribution.Descriptor{MediaType: blobType, Size: int64(len(data)), Digest: digest.FromBytes(data)}
	found, err := writer.Commit(ctx, expected)
	check("commit an upload", err)
	expect("commit an upload", found, expected)
	read, err := blobs.Get(ctx, expected.Digest)
	check("get a blob", err)
	expect("get a blob", read, data)
	reader, err := blobs.Open(ctx, expected.Digest)
	check("open a blob", err)
	defer reader.Close()
	_, err = reader.Seek(int64(third), io.SeekStart)
	check("seek in a blob", err)
	read, err = io.ReadAll(reader)
	check("read a blob from an offset", err)
	expect("read a blob from an offset", read, data[third:])
	return expected
}

func cancelUpload(ctx context.Context, repository distribution.Repository) {
	writer, err := repository.Blobs(ctx).Create(ctx)
	check("begin an upload", err)
	_, err = writer.Write([]byte("cancelled"))
	check("write to an upload", err)
	check("cancel an upload", writer.Cancel(ctx))
	_, err = writer.Write([]byte("more"))
	expect("write to an upload that was cancelled", err, distribution.ErrBlobUploadUnknown)
}

func mountBlob(ctx context.Context, from, to distribution.Repository, blob distribution.Descriptor) {
	_, err := to.Blobs(ctx).Stat(ctx, blob.Digest)
	expect("stat a blob before it is mounted", err, distribution.ErrBlobUnknown)
	source, err := reference.WithDigest(from.Named(), blob.Digest)
	check("name a blob", err)
	_, err = to.Blobs(ctx).Create(ctx, client.WithMountFrom(source))
	var mounted distribution.ErrBlobMounted
	if !errors.As(err, &mounted) {
		check("mount a blob", errors.New("it was not mounted"))
	}
	expect("mount a blob", mounted.Descriptor, blob)
}

// playManifest puts a manifest under a tag, gets it by tag and by digest, and deletes it.
func playManifest(ctx context.Context, repository distribution.Repository, manifest distribution.Manifest) {
	manifests, err := repository.Manifests(ctx)
	check("open the manifests", err)
	mediaType, text, err := manifest.Payload()
	check("write a manifest", err)
	expected := distribution.Descriptor{MediaType: mediaType, Size: int64(len(text)), Digest: digest.FromBytes(text)}
	put, err := manifests.Put(ctx, manifest, distribution.WithTag("v1"))
	check("put a manifest", err)
	expect("put a manifest", put, expected.Digest)
	var byTag digest.Digest
	for _, option := range [][]distribution.ManifestServiceOption{
		{distribution.WithTag("v1"), client.ReturnContentDigest(&byTag)}, nil,
	} {
		got, err := manifests.Get(ctx, put, option...)
		check("get a manifest", err)
		gotType, gotText, err := got.Payload()
		check("read a manifest", err)
		expect("get a manifest", string(gotText), string(text))
		expect("get the type of a manifest", gotType, mediaType)
	}
	expect("get the digest of a tag", byTag, put)
	playTags(ctx, repository, expected)
	check("delete a manifest", manifests.Delete(ctx, put))
	exists, err := manifests.Exists(ctx, put)
	check("look for a manifest", err)
	expect("look for a manifest after it was deleted", exists, false)
	_, err = manifests.Get(ctx, put, distribution.WithTag("v1"))
	expectCode("get a manifest after it was deleted", err, v2.ErrorCodeManifestUnknown)
}

// playTags checks that a repository has one tag, and that this has the manifest.
func playTags(ctx context.Context, repository distribution.Repository, manifest distribution.Descriptor) {
	tags := repository.Tags(ctx)
	names, err := tags.All(ctx)
	check("list the tags", err)
	expect("list the tags", names, []string{"v1"})
	found, err := tags.Get(ctx, "v1")
	check("get a tag", err)
	expect("get a tag", found, manifest)
	_, err = tags.Get(ctx, "v2")
	expectCode("get a tag that does not exist", err, v2.ErrorCodeManifestUnknown)
}

func deleteBlobs(ctx context.Context, repository distribution.Repository, blobs ...distribution.Descriptor) {
	for _, blob := range blobs {
		check("delete a blob", repository.Blobs(ctx).Delete(ctx, blob.Digest))
		_, err := repository.Blobs(ctx).Stat(ctx, blob.Digest)
		expect("stat a blob after it was deleted", err, distribution.ErrBlobUnknown)
	}
}

// expectCode ends the program if an error has another code than the expected one.
func expectCode(step string, err error, expected errcode.ErrorCode) {
	var found errcode.Errors
	if !errors.As(err, &found) || len(found) != 1 {
		check(step, fmt.Errorf("found the error %v and not %v", err, expected))
	}
	expect(step, found[0].(errcode.ErrorCoder).ErrorCode(), expected)
}
